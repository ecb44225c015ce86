//! The prepass (source 001, axiom 5-1): every declaration and formal gets a number of its own,
//! and every use the number of what it means.

use std::collections::BTreeMap;

use crate::tree::{Block, Declaration, Declared, Formal, Name, Procedure, Statement};

/// The number of each name that is visible.
type Visible = BTreeMap<Name, Name>;

pub struct Numbered {
    /// The program with numbers for names.
    pub program: Block,
    /// What is visible in each block, by the offset of its BK.
    visible: BTreeMap<usize, Visible>,
}

impl Numbered {
    /// The number that a name of the script has in the block at an offset.
    pub fn number(&self, offset: usize, name: Name) -> Option<Name> {
        self.visible[&offset].get(&name).copied()
    }
}

pub fn numbered(program: &Block) -> Numbered {
    let mut prepass = Prepass { given: 0, visible: BTreeMap::new() };
    let program = prepass.block(program, &Visible::new());
    Numbered { program, visible: prepass.visible }
}

struct Prepass {
    /// Numbers given so far.
    given: Name,
    visible: BTreeMap<usize, Visible>,
}

impl Prepass {
    fn block(&mut self, block: &Block, outer: &Visible) -> Block {
        let visible = self.inside(block, block.declared_names(), outer);
        self.text(block, &visible)
    }

    fn procedure(&mut self, procedure: &Procedure, outer: &Visible) -> Procedure {
        let visible = self.inside(&procedure.body, procedure.declared_names(), outer);
        let formal = |it: &Formal| Formal { name: visible[&it.name], ..*it };
        Procedure {
            formals: procedure.formals.iter().map(formal).collect(),
            body: self.text(&procedure.body, &visible),
        }
    }

    /// What is visible in a block with these names of its own, each of which gets a new number.
    fn inside(
        &mut self,
        block: &Block,
        own: impl Iterator<Item = Name>,
        outer: &Visible,
    ) -> Visible {
        let mut visible = outer.clone();
        for name in own {
            self.given += 1;
            visible.insert(name, self.given);
        }
        self.visible.insert(block.offset, visible.clone());
        visible
    }

    fn text(&mut self, block: &Block, visible: &Visible) -> Block {
        let declarations = block.declarations.iter();
        let statements = block.statements.iter();
        Block {
            offset: block.offset,
            declarations: declarations.map(|it| self.declaration(it, visible)).collect(),
            statements: statements.map(|it| self.statement(it, visible)).collect(),
        }
    }

    fn declaration(&mut self, it: &Declaration, visible: &Visible) -> Declaration {
        let declared = match &it.declared {
            Declared::Procedure(procedure) => {
                Declared::Procedure(self.procedure(procedure, visible))
            }
            other => other.clone(),
        };
        Declaration { offset: it.offset, name: visible[&it.name], declared }
    }

    fn statement(&mut self, it: &Statement, visible: &Visible) -> Statement {
        let block = |block: &Block| self.block(block, visible);
        let action = it.action.renamed(|name| visible[&name], block);
        Statement { offset: it.offset, action }
    }
}
