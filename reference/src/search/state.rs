//! The state (source 001, F1 to F8).

use crate::table::Table;
use crate::tree::{Block, Declaration, Declared, Formal, Name, Procedure};

pub struct State<'a> {
    /// s-bl, outermost first. They are numbered from 1.
    pub activations: Vec<Activation<'a>>,
    pub table: Table<'a>,
    pub d: usize,
    pub g: usize,
}

/// F2. It stands for both activations that a call makes in the source, since formals belong to the
/// body's block.
pub struct Activation<'a> {
    /// s-f: the activation at which a search goes on; where there is none, at the caller.
    pub passer: Option<usize>,
    /// s-ptr.
    pub block: &'a Block,
    pub formals: &'a [Formal],
    /// What the formals stand for, in their order.
    pub parameters: Vec<Found>,
    /// A word for each declaration: a variable's value, else 0.
    pub values: Vec<i32>,
    /// s-ctr: next statement number, from 1.
    pub next: usize,
}

/// A declared name, as a search finds it and as a formal stands for it (F7).
#[derive(Clone, Copy, Debug, PartialEq, Eq)]
pub struct Found {
    /// s-b: the activation that declares it.
    pub activation: usize,
    /// s-dcl: its number among the declarations there, from 0.
    pub declaration: usize,
    /// s-f: the activation whose call first passed it; none where it is no procedure or comes
    /// from no formal.
    pub passer: Option<usize>,
}

/// F3: what an activation's own name denotes.
pub enum Denotation {
    /// By its number among the block's declarations.
    Declared(usize),
    Parameter(Found),
}

impl<'a> State<'a> {
    /// The program block entered.
    pub fn new(program: &'a Block, d: usize, g: usize, table: Table<'a>) -> Self {
        let activations = vec![Activation::of_block(program)];
        State { activations, table, d, g }
    }

    pub fn innermost(&self) -> &Activation<'a> {
        self.activations.last().expect("a step needs a live activation")
    }

    pub fn numbered(&self, activation: usize) -> &Activation<'a> {
        &self.activations[activation - 1]
    }

    pub fn declaration(&self, found: Found) -> &'a Declaration {
        &self.numbered(found.activation).block.declarations[found.declaration]
    }
}

impl<'a> Activation<'a> {
    /// F11: a block has no passer.
    pub fn of_block(block: &'a Block) -> Self {
        Activation {
            passer: None,
            block,
            formals: &[],
            parameters: Vec::new(),
            values: vec![0; block.declarations.len()],
            next: 1,
        }
    }

    /// F12: a body has the passer that was found with the called name.
    pub fn of_body(
        procedure: &'a Procedure,
        parameters: Vec<Found>,
        passer: Option<usize>,
    ) -> Self {
        let Procedure { formals, body } = procedure;
        Activation { passer, formals, parameters, ..Activation::of_block(body) }
    }

    /// s-dn.
    pub fn denotation(&self, name: Name) -> Option<Denotation> {
        let formal = self.formals.iter().position(|formal| formal.name == name);
        let declared = || self.block.declared_names().position(|declared| declared == name);
        match formal {
            Some(at) => Some(Denotation::Parameter(self.parameters[at])),
            None => declared().map(Denotation::Declared),
        }
    }
}

/// The procedure that a declaration is.
pub fn procedure(declaration: &Declaration) -> &Procedure {
    match &declaration.declared {
        Declared::Procedure(procedure) => procedure,
        _ => unreachable!("the check lets only procedures be called"),
    }
}
