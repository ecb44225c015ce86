//! Sample scripts, with the boundaries named beside them.

mod support;

use reference::fast::{run_flawed, Flaw};
use reference::{End, Engine, Refusal, Stop};
use support::{assemble, checked, Call, Reply, Run, B};

const A: &str = "BK 2 3, VR 1, VR 2, KN 1 5, KN 2 7, AD 1 2";

fn call(text: &str) -> Call {
    Call::new(assemble(text))
}

fn a(g: u32, table: &[i32], count: usize) -> Reply {
    Call { g, table: table.to_vec(), count, ..call(A) }.run()
}

fn ends(reply: &Reply, end: End, steps: u64, offset: u64) {
    let answer = reply.answer;
    assert_eq!((answer.end, answer.steps, answer.offset), (end, steps, offset));
    assert_eq!(answer.tally, steps);
}

#[test]
fn empty_script() {
    assert_eq!(checked(&[]), (1, 0));
    ends(&Call::new(vec![]).run(), End::Refused(Refusal::Length), 0, 0);
}

#[test]
fn empty_program() {
    let reply = call("BK 0 0").run();
    ends(&reply, End::Finished, 1, 0);
    assert!(reply.sheet_words().is_empty());
    let reply = Call { n: 0, ..call("BK 0 0") }.run();
    ends(&reply, End::Spent, 0, 0);
    assert_eq!(reply.sheet_words(), [0, 1, 0]);
}

#[test]
fn a_adds_its_pair() {
    assert_eq!(assemble(A).len(), 36);
    let reply = a(3, &[0; 16], 0);
    ends(&reply, End::Finished, 4, 0);
    assert_eq!(reply.answer.pairs, 1);
    assert_eq!(reply.table[..4], [5, 7, 0, 0]);
    assert_eq!(reply.groups, [&[5, 1][..], &[0; 14]].concat());
}

#[test]
fn a_meets_the_group_limit() {
    let reply = a(1, &[5, 8, 0, 0], 1);
    ends(&reply, End::Stopped(Stop::GroupFull), 2, 30);
    assert_eq!((reply.answer.pairs, &reply.table[..]), (1, &[5, 8, 0, 0][..]));
    let reply = a(1, &[5, 7, 0, 0], 1);
    ends(&reply, End::Finished, 4, 0);
    assert_eq!((reply.answer.pairs, &reply.table[..]), (1, &[5, 7, 0, 0][..]));
}

#[test]
fn a_meets_a_full_table() {
    let reply = a(3, &[6, 1], 1);
    ends(&reply, End::Stopped(Stop::TableFull), 2, 30);
    assert_eq!(reply.table, [6, 1]);
}

#[test]
fn b_keeps_each_activation_s_own_variable() {
    assert_eq!(assemble(B).len(), 122);
    let reply = Call { n: 9, name: 5, ..call(B) }.run();
    ends(&reply, End::Spent, 9, 0);
    let (program, body_of_6) = ([0, 2, 0, 1, 0, 0], [50, 2, 2]);
    let (first, second) = ([34, 5, 1, 66, 9, 0, 0], [34, 7, 1, 131, 2, 0, 0]);
    assert_eq!(reply.sheet_words(), [&program[..], &first, &second, &body_of_6].concat());
    // The innermost block is procedure 6's, the variable that of the first activation of 3.
    assert_eq!((reply.answer.designator, reply.answer.links), (130, 1));
}

fn b_by(flawed: Run) -> Vec<i32> {
    Call { n: 9, ..call(B) }.by(flawed, Engine::Display).sheet_words().to_vec()
}

#[test]
fn b_tells_the_newest_link() {
    let sheet = b_by(|request, lent| run_flawed(Flaw::NewestLink, request, lent));
    assert_eq!(sheet[6..], [34, 5, 1, 66, 1, 0, 0, 34, 7, 1, 131, 9, 0, 0, 50, 2, 3]);
}

#[test]
fn b_tells_the_caller_shown() {
    let sheet = b_by(|request, lent| run_flawed(Flaw::CallerShown, request, lent));
    assert_eq!(sheet[6..], [34, 5, 1, 66, 9, 0, 0, 34, 7, 2, 131, 2, 0, 0, 50, 2, 3]);
}

#[test]
fn b_tells_the_newest_shown() {
    let sheet = b_by(|request, lent| run_flawed(Flaw::NewestShown, request, lent));
    assert_eq!(sheet[6..], [34, 5, 1, 66, 9, 0, 0, 34, 7, 1, 131, 2, 0, 0, 50, 2, 3]);
}

fn arithmetic(left: i32, operation: u16, right: i32) -> Reply {
    call(&format!("BK 2 3, VR 1, VR 2, KN 1 {left}, KN 2 {right}, AR 1 {operation} 1 2")).run()
}

#[test]
fn arithmetic_at_the_ends_of_32_bits() {
    ends(&arithmetic(i32::MAX, 0, 1), End::Stopped(Stop::Overflow), 2, 30);
    ends(&arithmetic(i32::MIN, 1, 1), End::Stopped(Stop::Overflow), 2, 30);
    ends(&arithmetic(i32::MAX, 0, 0), End::Finished, 4, 0);
    ends(&arithmetic(i32::MIN, 1, 0), End::Finished, 4, 0);
    ends(&arithmetic(i32::MIN, 2, i32::MAX), End::Finished, 4, 0);
}

#[test]
fn a_block_needs_a_second_activation() {
    let nested = call("BK 0 1, BK 0 0");
    ends(&Call { d: 1, ..nested.clone() }.run(), End::Stopped(Stop::Activations), 0, 6);
    ends(&Call { d: 2, ..nested }.run(), End::Finished, 3, 0);
}

#[test]
fn index_within_its_block() {
    let index = |index: u16| checked(&assemble(&format!("BK 1 1, LB 1 {index}, GO 1")));
    assert_eq!(index(1), (0, 0));
    assert_eq!(index(0), (4, 6));
    assert_eq!(index(2), (4, 6));
}

/// A program with this many levels of blocks.
fn levels(count: usize) -> String {
    "BK 0 1, ".repeat(count - 1) + "BK 0 0"
}

#[test]
fn sixteen_levels() {
    assert_eq!(checked(&assemble(&levels(16))), (0, 0));
    assert_eq!(checked(&assemble(&levels(17))), (6, 16 * 6));
    ends(&call(&levels(16)).run(), End::Finished, 31, 0);
}

fn variables(first: usize, count: usize) -> String {
    (first..first + count).map(|name| format!("VR {name}, ")).collect()
}

fn formals(first: usize, count: usize) -> String {
    (first..first + count).map(|name| format!("FM {name} 0, ")).collect()
}

#[test]
fn thirty_two_names() {
    let block = |count| assemble(&format!("BK {count} 0, {}", variables(1, count)));
    assert_eq!(checked(&block(32)), (0, 0));
    assert_eq!(checked(&block(33)), (7, 0));
}

#[test]
fn thirty_two_names_with_formals() {
    let body = |p, d| {
        let (formals, variables) = (formals(1, p), variables(50, d));
        assemble(&format!("BK 1 0, PR 1 {p}, {formals} BK {d} 0, {variables}"))
    };
    assert_eq!(checked(&body(32, 0)), (0, 0));
    assert_eq!(checked(&body(31, 1)), (0, 0));
    assert_eq!(checked(&body(32, 1)), (7, 12 + 32 * 6));
    assert_eq!(checked(&body(33, 0)), (7, 6));
}

#[test]
fn thirty_two_arguments() {
    let call = |a: usize| assemble(&format!("BK 0 1, CL 1 {a} {}", "2 ".repeat(a)));
    assert_eq!(checked(&call(32)), (9, 6));
    assert_eq!(checked(&call(33)), (4, 6));
    assert_eq!(checked(&assemble("BK 0 1, CL 1 33")), (4, 6));
    assert_eq!(checked(&assemble("BK 0 1, CL 1 32 2")), (2, 6));
}

#[test]
fn longest_script() {
    let script = |statements: usize| {
        assemble(&format!("BK 1 {statements}, VR 1, {}", "KN 1 1, ".repeat(statements)))
    };
    assert_eq!((script(1_022).len(), checked(&script(1_022))), (8_186, (0, 0)));
    assert_eq!((script(1_023).len(), checked(&script(1_023))), (8_194, (1, 0)));
    let full = assemble(&format!("BK 1 1023, VR 1, {} AD 1 1", "KN 1 1, ".repeat(1_022)));
    assert_eq!((full.len(), checked(&full)), (8_192, (0, 0)));
    ends(&Call { n: 2_000, ..Call::new(full) }.run(), End::Finished, 1_024, 0);
    let mut odd = script(1);
    odd.push(0);
    assert_eq!(checked(&odd), (1, 0));
}

#[test]
fn allowance_at_its_bound() {
    let program = call("BK 1 1, LB 1 1, GO 1");
    ends(&Call { n: 1_000_001, ..program.clone() }.run(), End::Refused(Refusal::Limits), 0, 0);
    ends(&Call { n: 1_000_000, ..program }.run(), End::Spent, 1_000_000, 0);
}

#[test]
fn the_run_program_on_a() {
    let copying = Engine::Copying { area: 16 * 18 };
    let chain = Engine::Chain { records: 16 };
    for engine in [copying, chain, Engine::Display, Engine::Search] {
        let reply = call(A).on(engine);
        assert_eq!(reply.answer.words(), [0, 0, 4, 0, 1, 0, 4, 0, 0]);
        assert_eq!((&reply.table[..2], &reply.groups[..2]), (&[5, 7][..], &[5, 1][..]));
    }
}
