//! The copy rule, written out: what the machine holds, and entering and leaving.

use std::collections::BTreeMap;

use super::rename::{entered, Readings};
use crate::table::Table;
use crate::tree::{Block, Declaration, Declared, Formal, Kind, Name, Procedure};

/// The first name that no script can hold.
const FIRST_NEW_NAME: Name = 65_536;

pub struct Activation {
    /// Of its BK.
    pub offset: usize,
    /// Next statement number, from 1.
    pub next: usize,
    /// The number of the activation from whose copy its text was taken, from 1; 0 for the program.
    pub encloser: usize,
    /// Its own copy of the block's text.
    pub text: Block,
    /// What the formals read as, in order; none for a block that is no body.
    pub formals: Vec<Name>,
    /// What each visible name of the script reads as.
    pub readings: Readings,
}

pub struct Machine<'a> {
    /// Outermost first.
    pub activations: Vec<Activation>,
    /// A value for each new name of a live variable.
    pub values: BTreeMap<Name, i32>,
    next_new_name: Name,
    pub table: Table<'a>,
    pub d: usize,
    pub g: usize,
}

/// A declared name's activation and position, both from 0.
#[derive(Clone, Copy)]
pub struct Instance {
    pub activation: usize,
    pub position: usize,
}

impl<'a> Machine<'a> {
    /// The program block entered.
    pub fn new(program: &Block, d: usize, g: usize, table: Table<'a>) -> Self {
        let mut machine = Machine {
            activations: Vec::new(),
            values: BTreeMap::new(),
            next_new_name: FIRST_NEW_NAME,
            table,
            d,
            g,
        };
        machine.enter(program, &[], &[], 0);
        machine
    }

    /// A BK of the innermost activation's copy.
    pub fn enter_block(&mut self, block: &Block) {
        self.enter(block, &[], &[], self.activations.len());
    }

    /// A body, from the copy of the activation that declared the called name.
    pub fn enter_body(&mut self, called: Name, arguments: &[Name]) {
        let declaring = self.instance(called).activation + 1;
        let Procedure { formals, body } = self.procedure(called).clone();
        self.enter(&body, &formals, arguments, declaring);
    }

    /// A block of the encloser's copy: outer names have been replaced there, so only its own are now.
    fn enter(&mut self, block: &Block, formals: &[Formal], arguments: &[Name], encloser: usize) {
        let mut own = Readings::new();
        for (formal, argument) in formals.iter().zip(arguments) {
            own.insert(formal.name, *argument);
        }
        for declaration in &block.declarations {
            own.insert(declaration.name, self.new_name(declaration));
        }
        let text = entered(block, &own);
        let mut readings = self.read_in(encloser);
        readings.extend(own);
        let formals = arguments.to_vec();
        self.activations.push(Activation {
            offset: block.offset,
            next: 1,
            encloser,
            text,
            formals,
            readings,
        });
    }

    /// What names read as in the copy of the activation of a number; in the script, as written.
    fn read_in(&self, number: usize) -> Readings {
        match number {
            0 => Readings::new(),
            _ => self.activations[number - 1].readings.clone(),
        }
    }

    fn new_name(&mut self, declaration: &Declaration) -> Name {
        let name = self.next_new_name;
        self.next_new_name += 1;
        if declaration.kind() == Kind::Variable {
            self.values.insert(name, 0);
        }
        name
    }

    /// Leaves or drops every activation but the outermost `kept`, with their variables.
    pub fn keep(&mut self, kept: usize) {
        for activation in self.activations.drain(kept..) {
            for name in activation.text.declared_names() {
                self.values.remove(&name);
            }
        }
    }

    pub fn innermost(&self) -> &Activation {
        self.activations.last().expect("a step needs a live activation")
    }

    /// The live activation and position that declared a new name.
    pub fn instance(&self, name: Name) -> Instance {
        for (activation, it) in self.activations.iter().enumerate() {
            if let Some(index) = it.text.declared_names().position(|declared| declared == name) {
                return Instance { activation, position: it.formals.len() + index };
            }
        }
        unreachable!("a name in live text is declared by a live activation")
    }

    fn declaration(&self, name: Name) -> &Declaration {
        let Instance { activation, position } = self.instance(name);
        let activation = &self.activations[activation];
        &activation.text.declarations[position - activation.formals.len()]
    }

    pub fn kind(&self, name: Name) -> Kind {
        self.declaration(name).kind()
    }

    pub fn procedure(&self, name: Name) -> &Procedure {
        match &self.declaration(name).declared {
            Declared::Procedure(procedure) => procedure,
            _ => unreachable!("the check lets only procedures be called"),
        }
    }

    pub fn label_index(&self, name: Name) -> usize {
        match &self.declaration(name).declared {
            Declared::Label(index) => *index,
            _ => unreachable!("the check lets only labels be gone to"),
        }
    }
}
