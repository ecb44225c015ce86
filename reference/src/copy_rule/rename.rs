//! One step: replacing names throughout the text that they govern.

use std::collections::BTreeMap;

use crate::tree::{Block, Declaration, Declared, Name, Procedure, Statement};

/// What names read as. A name without an entry reads as itself.
pub type Readings = BTreeMap<Name, Name>;

/// A copy of a block that is being entered; its own names are among the readings.
pub fn entered(block: &Block, readings: &Readings) -> Block {
    Block {
        offset: block.offset,
        declarations: block.declarations.iter().map(|it| declaration(it, readings)).collect(),
        statements: block.statements.iter().map(|it| statement(it, readings)).collect(),
    }
}

fn name(name: Name, readings: &Readings) -> Name {
    *readings.get(&name).unwrap_or(&name)
}

/// A name declared again nearer is not replaced from outside.
fn without(readings: &Readings, declared: impl Iterator<Item = Name>) -> Readings {
    let mut inner = readings.clone();
    for name in declared {
        inner.remove(&name);
    }
    inner
}

fn inner_block(block: &Block, readings: &Readings) -> Block {
    entered(block, &without(readings, block.declared_names()))
}

fn declaration(declaration: &Declaration, readings: &Readings) -> Declaration {
    let declared = match &declaration.declared {
        Declared::Procedure(it) => Declared::Procedure(procedure(it, readings)),
        other => other.clone(),
    };
    Declaration { offset: declaration.offset, name: name(declaration.name, readings), declared }
}

fn procedure(procedure: &Procedure, readings: &Readings) -> Procedure {
    let inner = without(readings, procedure.declared_names());
    Procedure { formals: procedure.formals.clone(), body: entered(&procedure.body, &inner) }
}

fn statement(statement: &Statement, readings: &Readings) -> Statement {
    let now = |it| name(it, readings);
    let action = statement.action.renamed(now, |block| inner_block(block, readings));
    Statement { offset: statement.offset, action }
}
