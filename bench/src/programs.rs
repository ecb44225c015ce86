//! Programs that run as long as they are let, each busy with one thing.

use differential::encode::encode;
use reference::tree::{Action, Block, Declared, Formal, Kind, Name, Operation, Procedure};

use crate::scripts::{block, declaration, variables};

const COUNTER: Name = 1;
const ONE: Name = 2;
const MOST: Name = 3;
const TEST: Name = 4;
const AGAIN: Name = 5;
const CALLED: Name = 6;

fn plus(target: Name, left: Name, right: Name) -> Action {
    Action::Arithmetic { target, operation: Operation::Plus, left, right }
}

fn less(target: Name, left: Name, right: Name) -> Action {
    Action::Arithmetic { target, operation: Operation::Less, left, right }
}

fn set(target: Name, value: i32) -> Action {
    Action::Constant { target, value }
}

fn call(procedure: Name, arguments: Vec<Name>) -> Action {
    Action::Call { procedure, arguments }
}

fn jump_if(variable: Name, label: Name) -> Action {
    Action::If { variable, label }
}

fn formal(name: Name, kind: Kind) -> Formal {
    Formal { offset: 0, name, kind }
}

fn procedure(formals: Vec<Formal>, body: Block) -> Declared {
    Declared::Procedure(Procedure { formals, body })
}

/// A program of four variables that counts up without end: what is done in each turn, and what it declares besides.
fn counting(turn: Vec<Action>, declared: Vec<(Name, Declared)>) -> Vec<u8> {
    let mut declarations = variables([COUNTER, ONE, MOST, TEST].into_iter());
    declarations.push(declaration(AGAIN, Declared::Label(3)));
    declarations.extend(declared.into_iter().map(|(name, it)| declaration(name, it)));
    let mut actions = vec![set(ONE, 1), set(MOST, i32::MAX)];
    actions.extend(turn);
    actions.extend([plus(COUNTER, COUNTER, ONE), less(TEST, COUNTER, MOST), jump_if(TEST, AGAIN)]);
    encode(&block(declarations, actions)).bytes
}

pub fn counting_loop() -> Vec<u8> {
    counting(Vec::new(), Vec::new())
}

/// Three blocks, one inside the other, entered and left in each turn.
pub fn nested_blocks() -> Vec<u8> {
    let inner = |name: Name, action| {
        Action::Block(block(variables([name].into_iter()), vec![set(name, 1), action]))
    };
    counting(vec![inner(10, inner(11, inner(12, set(12, 2))))], Vec::new())
}

/// A recursion 200 deep, over and over; `last` is done at the bottom, and each call goes deeper with the arguments.
fn recursion(
    formals: Vec<Formal>,
    arguments: Vec<Name>,
    first: Vec<Name>,
    last: Action,
) -> Vec<u8> {
    let (deeper, done, mark, empty): (Name, Name, Name, Name) = (20, 21, 8, 7);
    let body = block(
        vec![declaration(deeper, Declared::Label(6)), declaration(done, Declared::Label(7))],
        vec![
            plus(COUNTER, COUNTER, ONE),
            less(TEST, COUNTER, MOST),
            jump_if(TEST, deeper),
            last,
            Action::Go { label: done },
            call(CALLED, arguments),
            set(mark, 1),
        ],
    );
    let mut declarations = variables([COUNTER, ONE, MOST, TEST, mark].into_iter());
    declarations.push(declaration(AGAIN, Declared::Label(3)));
    declarations.push(declaration(CALLED, procedure(formals, body)));
    declarations.push(declaration(empty, procedure(Vec::new(), block(Vec::new(), Vec::new()))));
    let again = Action::Go { label: AGAIN };
    let actions = vec![set(ONE, 1), set(MOST, 200), set(COUNTER, 0), call(CALLED, first), again];
    encode(&block(declarations, actions)).bytes
}

/// Left by a goto out of all calls.
pub fn gotos_out_of_calls() -> Vec<u8> {
    recursion(Vec::new(), Vec::new(), Vec::new(), Action::Go { label: AGAIN })
}

/// Down and back again.
pub fn plain_recursion() -> Vec<u8> {
    recursion(Vec::new(), Vec::new(), Vec::new(), set(TEST, 0))
}

/// The procedure handed to the first call goes down with it and is called at the bottom.
pub fn handed_down() -> Vec<u8> {
    recursion(vec![formal(30, Kind::Procedure)], vec![30], vec![7], call(30, Vec::new()))
}

/// All variables are reached through formals.
pub fn through_formals() -> Vec<u8> {
    let (counter, one, most, test) = (11, 12, 13, 14);
    let body = block(
        vec![declaration(20, Declared::Label(1))],
        vec![plus(counter, counter, one), less(test, counter, most), jump_if(test, 20)],
    );
    let formals = [counter, one, most, test].map(|name| formal(name, Kind::Variable)).to_vec();
    counting(
        vec![call(CALLED, vec![COUNTER, ONE, MOST, TEST])],
        vec![(CALLED, procedure(formals, body))],
    )
}

pub fn many_arguments() -> Vec<u8> {
    let formals = (101..=132).map(|name| formal(name, Kind::Variable)).collect();
    let arguments = (0..32).map(|at| 1 + at % 4).collect();
    counting(
        vec![call(CALLED, arguments)],
        vec![(CALLED, procedure(formals, block(Vec::new(), Vec::new())))],
    )
}

const GROUP: Name = 40;
const MEMBER: Name = 41;

/// A program that begins with a pair and goes through its turn without end; four steps come before the first turn.
fn on_table(pair: [i32; 2], turn: Vec<Action>) -> Vec<u8> {
    let asked: Name = 42;
    let mut declarations = variables([COUNTER, ONE, MOST, TEST, GROUP, MEMBER, asked].into_iter());
    declarations.push(declaration(AGAIN, Declared::Label(5)));
    let mut actions =
        vec![set(ONE, 1), set(MOST, i32::MAX), set(GROUP, pair[0]), set(MEMBER, pair[1])];
    actions.extend(turn);
    encode(&block(declarations, actions)).bytes
}

/// In each turn a pair is added, asked for and taken out again.
pub fn table_work() -> Vec<u8> {
    let (group, member) = (GROUP, MEMBER);
    let turn = vec![
        Action::Add { group, member },
        Action::Query { target: 42, group, member },
        Action::Remove { group, member },
        plus(COUNTER, COUNTER, ONE),
        less(TEST, COUNTER, MOST),
        jump_if(TEST, AGAIN),
    ];
    on_table([1_000_000, 1], turn)
}

/// In each turn group 1 gets another member.
pub fn members_added() -> Vec<u8> {
    let add = Action::Add { group: GROUP, member: MEMBER };
    on_table([1, 1_000_000], vec![add, plus(MEMBER, MEMBER, ONE), Action::Go { label: AGAIN }])
}

/// In each turn the next group gets a member.
pub fn groups_added() -> Vec<u8> {
    let add = Action::Add { group: GROUP, member: MEMBER };
    on_table([1, 1], vec![add, plus(GROUP, GROUP, ONE), Action::Go { label: AGAIN }])
}

/// In each turn member 1 leaves the next group.
pub fn groups_emptied() -> Vec<u8> {
    let remove = Action::Remove { group: GROUP, member: MEMBER };
    on_table([1, 1], vec![remove, plus(GROUP, GROUP, ONE), Action::Go { label: AGAIN }])
}

/// The counting loop sixteen levels deep, its variables and its label fifteen levels away or none.
pub fn far_names() -> Vec<u8> {
    let loop_here: Name = 60;
    let turn =
        vec![plus(COUNTER, COUNTER, ONE), less(TEST, COUNTER, MOST), jump_if(TEST, loop_here)];
    let innermost = block(vec![declaration(loop_here, Declared::Label(1))], turn);
    let inner = (0..14).fold(innermost, |inner, _| block(Vec::new(), vec![Action::Block(inner)]));
    let actions = vec![set(ONE, 1), set(MOST, i32::MAX), Action::Block(inner)];
    encode(&block(variables([COUNTER, ONE, MOST, TEST].into_iter()), actions)).bytes
}

/// A block of 4,000 words whose first statement goes out of it, entered again and again: the other statements are never done.
pub fn large_block() -> Vec<u8> {
    let (again, own): (Name, Name) = (1, 2);
    let mut inside = vec![Action::Go { label: again }];
    let heading = 3 + 2 + 2;
    inside.extend((0..(4_000 - heading) / 4).map(|value| set(own, value as i32)));
    let inner = Action::Block(block(variables([own].into_iter()), inside));
    encode(&block(vec![declaration(again, Declared::Label(1))], vec![inner])).bytes
}
