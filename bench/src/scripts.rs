//! Fit scripts of an exact length.

use differential::encode::encode;
use reference::tree::{
    Action, Block, Declaration, Declared, Formal, Kind, Name, Operation, Procedure, Statement,
};

const LEVELS: usize = 16;
const NAMES: usize = 32;
/// Declared by each program, for statements that only fill.
const FIRST: Name = 1;

pub fn block(declarations: Vec<Declaration>, actions: Vec<Action>) -> Block {
    let statement = |action| Statement { offset: 0, action };
    Block { offset: 0, declarations, statements: actions.into_iter().map(statement).collect() }
}

pub fn declaration(name: Name, declared: Declared) -> Declaration {
    Declaration { offset: 0, name, declared }
}

pub fn variables(names: impl Iterator<Item = Name>) -> Vec<Declaration> {
    names.map(|name| declaration(name, Declared::Variable)).collect()
}

fn constant(target: Name) -> Action {
    Action::Constant { target, value: 5 }
}

fn arithmetic(target: Name, left: Name, right: Name) -> Action {
    Action::Arithmetic { target, operation: Operation::Plus, left, right }
}

/// A program that repeats a statement as often as it fits and fills up with short ones, so that
/// twice the length is twice the work.
fn filled(declarations: Vec<Declaration>, repeated: Action, length: usize) -> Vec<u8> {
    let size = |actions: Vec<Action>| encode(&block(declarations.clone(), actions)).bytes.len();
    let empty = size(Vec::new());
    let each = size(vec![repeated.clone()]) - empty;
    let mut times = (length - empty) / each;
    if (1..6).contains(&((length - empty) % each)) {
        times -= 1;
    }
    let mut actions = vec![repeated; times];
    actions.extend(filling(length - empty - times * each));
    let script = encode(&block(declarations, actions)).bytes;
    assert_eq!(script.len(), length);
    script
}

/// Statements of as many bytes: an even number, and 6 or more.
fn filling(bytes: usize) -> Vec<Action> {
    let mut left = bytes;
    let mut actions = Vec::new();
    while left > 0 {
        let (action, taken) = match left % 8 {
            0 => (constant(FIRST), 8),
            2 => (arithmetic(FIRST, FIRST, FIRST), 10),
            _ => (Action::Add { group: FIRST, member: FIRST }, 6),
        };
        actions.push(action);
        left -= taken;
    }
    actions
}

/// Towers of blocks down to the last level, where the program's variable is used.
pub fn nested(length: usize) -> Vec<u8> {
    let innermost = block(variables([LEVELS as Name].into_iter()), vec![constant(FIRST)]);
    let tower = (2..LEVELS as Name).rev().fold(innermost, |inner, level| {
        block(variables([level].into_iter()), vec![Action::Block(inner)])
    });
    filled(variables([FIRST].into_iter()), Action::Block(tower), length)
}

/// Blocks full of names inside each other, and at the bottom uses of names of every level.
pub fn many_names(length: usize) -> Vec<u8> {
    let all = ((LEVELS - 1) * NAMES) as Name;
    let used = |number: Name| FIRST + 1 + number * 7 % all;
    let uses = (0..200).map(|at| arithmetic(used(3 * at), used(3 * at + 1), used(3 * at + 2)));
    let names: Vec<Name> = (FIRST + 1..=FIRST + all).collect();
    let tower = names.chunks(NAMES).rev().fold(uses.collect(), |actions: Vec<Action>, names| {
        vec![Action::Block(block(variables(names.iter().copied()), actions))]
    });
    let tower = tower.into_iter().next().expect("there are levels");
    filled(variables([FIRST].into_iter()), tower, length)
}

/// Procedures inside each other down to the last level, whose body has nearly all the bytes.
pub fn procedures(length: usize) -> Vec<u8> {
    let program = |bytes: usize| {
        let innermost = block(Vec::new(), filling(bytes));
        let outermost = (FIRST + 1..=LEVELS as Name).rev().fold(innermost, |body, name| {
            let procedure = Procedure { formals: Vec::new(), body };
            block(vec![declaration(name, Declared::Procedure(procedure))], Vec::new())
        });
        let mut declarations = variables([FIRST].into_iter());
        declarations.extend(outermost.declarations);
        encode(&block(declarations, Vec::new())).bytes
    };
    let script = program(length - program(0).len());
    assert_eq!(script.len(), length);
    script
}

/// One procedure with as many formals as there may be, called over and over.
pub fn calls(length: usize) -> Vec<u8> {
    let procedure = NAMES as Name;
    let formal = |name| Formal { offset: 0, name, kind: Kind::Variable };
    let formals = (1..=NAMES as Name).map(formal).collect();
    let body = block(Vec::new(), Vec::new());
    let mut declarations = variables(FIRST..procedure);
    declarations.push(declaration(procedure, Declared::Procedure(Procedure { formals, body })));
    let arguments = (0..NAMES as Name).map(|name| FIRST + name * 5 % (procedure - FIRST)).collect();
    filled(declarations, Action::Call { procedure, arguments }, length)
}

/// One block without names of its own but one, and a list of statements.
pub fn flat(length: usize) -> Vec<u8> {
    filled(variables([FIRST].into_iter()), constant(FIRST), length)
}
