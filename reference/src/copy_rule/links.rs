//! State sheet: the links that the chain engine follows for the looked-up name.

use crate::tree::{Action, Block, Declared, Name};

/// From the block at `offset` to the one that declares the name as written there.
pub fn followed(program: &Block, offset: usize, name: Name) -> usize {
    let mut enclosing = Vec::new();
    path(program, Vec::new(), offset, &mut enclosing);
    let innermost_first = enclosing.iter().rev();
    innermost_first.clone().position(|names| names.contains(&name)).unwrap_or(0)
}

/// The names of each block from the program to the one at `offset`; false if it is not inside.
fn path(block: &Block, formals: Vec<Name>, offset: usize, enclosing: &mut Vec<Vec<Name>>) -> bool {
    enclosing.push(formals.into_iter().chain(block.declared_names()).collect());
    let found = block.offset == offset
        || in_bodies(block, offset, enclosing)
        || in_statements(block, offset, enclosing);
    if !found {
        enclosing.pop();
    }
    found
}

fn in_bodies(block: &Block, offset: usize, enclosing: &mut Vec<Vec<Name>>) -> bool {
    block.declarations.iter().any(|declaration| match &declaration.declared {
        Declared::Procedure(procedure) => {
            let formals = procedure.formals.iter().map(|formal| formal.name).collect();
            path(&procedure.body, formals, offset, enclosing)
        }
        _ => false,
    })
}

fn in_statements(block: &Block, offset: usize, enclosing: &mut Vec<Vec<Name>>) -> bool {
    block.statements.iter().any(|statement| match &statement.action {
        Action::Block(inner) => path(inner, Vec::new(), offset, enclosing),
        _ => false,
    })
}
