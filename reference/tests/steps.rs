//! One step: what a statement does, and the order of the causes to stop.

mod support;

use reference::{End, Stop};
use support::{assemble, Call, Reply};

fn on_table(text: &str, g: u32, table: &[i32], count: usize) -> Reply {
    Call { g, table: table.to_vec(), count, ..Call::new(assemble(text)) }.run()
}

/// Group and member stand in variables 1 and 2.
fn with_pair(group: i32, member: i32, statement: &str) -> String {
    format!("BK 3 3, VR 1, VR 2, VR 3, KN 1 {group}, KN 2 {member}, {statement}")
}

fn stopped(reply: &Reply, cause: Stop, steps: u64) {
    assert_eq!((reply.answer.end, reply.answer.steps), (End::Stopped(cause), steps));
}

fn finished(reply: &Reply, pairs: u64, table: &[i32]) {
    assert_eq!(reply.answer.end, End::Finished);
    assert_eq!((reply.answer.pairs, &reply.table[..]), (pairs, table));
}

#[test]
fn removal_moves_later_pairs_down() {
    let table = [1, 1, 1, 2, 2, 1, 8, 8];
    let removed = |group, member| on_table(&with_pair(group, member, "RM 1 2"), 3, &table, 3);
    finished(&removed(1, 1), 2, &[1, 2, 2, 1, 0, 0, 8, 8]);
    finished(&removed(2, 1), 2, &[1, 1, 1, 2, 0, 0, 8, 8]);
    finished(&removed(8, 8), 3, &table);
}

#[test]
fn a_freed_place_is_used_again() {
    let text = "BK 2 4, VR 1, VR 2, KN 1 1, KN 2 2, RM 1 1, AD 1 2";
    finished(&on_table(text, 1, &[1, 1], 1), 1, &[1, 2]);
}

#[test]
fn a_present_pair_needs_no_room() {
    finished(&on_table(&with_pair(1, 1, "AD 1 2"), 1, &[1, 1], 1), 1, &[1, 1]);
}

#[test]
fn query_stores_presence() {
    let queried = |member| {
        let call = Call {
            n: 3,
            table: vec![4, 5],
            count: 1,
            ..Call::new(assemble(&with_pair(4, member, "QY 3 1 2")))
        };
        call.run().sheet_words()[5]
    };
    assert_eq!((queried(5), queried(6)), (1, 0));
}

#[test]
fn numbers_below_one() {
    for statement in ["AD 1 2", "RM 1 2", "QY 3 1 2"] {
        for (group, member) in [(0, 1), (1, 0), (-1, 1), (1, i32::MIN)] {
            let reply = on_table(&with_pair(group, member, statement), 1, &[], 0);
            stopped(&reply, Stop::BelowOne, 2);
            assert_eq!(reply.answer.offset, 34);
        }
    }
}

#[test]
fn group_limit_before_full_table() {
    let reply = on_table(&with_pair(1, 2, "AD 1 2"), 1, &[1, 1], 1);
    stopped(&reply, Stop::GroupFull, 2);
    let reply = on_table(&with_pair(2, 2, "AD 1 2"), 1, &[1, 1], 1);
    stopped(&reply, Stop::TableFull, 2);
}

/// Procedure 1 calls its formal 2 with one variable.
fn through_formal(formals: &str, d: u32) -> Reply {
    let p = formals.matches("FM").count();
    let text = format!(
        "BK 3 1, VR 9, PR 1 1, FM 2 2, BK 0 1, CL 2 1 9, PR 3 {p}, {formals} BK 0 0, CL 1 1 3"
    );
    Call { d, ..Call::new(assemble(&text)) }.run()
}

#[test]
fn arguments_through_a_formal() {
    assert_eq!(through_formal("FM 4 0,", 3).answer.end, End::Finished);
    stopped(&through_formal("", 3), Stop::FormalArguments, 1);
    stopped(&through_formal("FM 4 1,", 3), Stop::FormalArguments, 1);
    stopped(&through_formal("FM 4 0, FM 5 0,", 3), Stop::FormalArguments, 1);
}

#[test]
fn arguments_before_activations() {
    stopped(&through_formal("FM 4 0,", 2), Stop::Activations, 1);
    stopped(&through_formal("FM 4 1,", 2), Stop::FormalArguments, 1);
}

#[test]
fn a_goto_out_of_calls_is_one_step() {
    // Procedure 1 goes to its formal label; the program's label 5 is handed down twice.
    let text = "BK 4 3, PR 1 1, FM 2 1, BK 0 1, GO 2, PR 3 1, FM 4 1, BK 0 1, CL 1 1 4, \
                LB 5 3, VR 6, CL 3 1 5, KN 6 9, KN 6 7";
    let at = |n| Call { n, name: 6, ..Call::new(assemble(text)) }.run();
    assert_eq!(at(2).sheet_words(), [0, 2, 0, 0, 0, 0, 0, 40, 2, 1, 67, 18, 1, 1, 67]);
    assert_eq!(at(3).sheet_words(), [0, 3, 0, 0, 0, 0, 0]);
    assert_eq!((at(2).answer.designator, at(2).answer.links), (68, 1));
    assert_eq!(at(4).sheet_words(), [0, 4, 0, 0, 0, 0, 7]);
    assert_eq!((at(5).answer.end, at(5).answer.steps), (End::Finished, 5));
}

#[test]
fn a_formal_hides_an_outer_name() {
    // Inside procedure 1 name 9 is its formal and stands for variable 8.
    let text = "BK 3 2, VR 8, VR 9, PR 1 1, FM 9 0, BK 0 1, KN 9 5, CL 1 1 8, KN 9 3";
    let reply = Call { n: 2, name: 9, ..Call::new(assemble(text)) }.run();
    assert_eq!(reply.sheet_words(), [0, 2, 0, 5, 0, 0, 26, 2, 1, 65]);
    assert_eq!((reply.answer.designator, reply.answer.links), (65, 0));
}

#[test]
fn arguments_are_read_where_the_call_stands() {
    // Procedure 1 hands its formals 2 and 3 on to itself in the other order.
    let text = "BK 3 1, VR 8, VR 9, PR 1 2, FM 2 0, FM 3 0, BK 0 1, CL 1 2 3 2, CL 1 2 8 9";
    let reply = Call { n: 3, d: 4, ..Call::new(assemble(text)) }.run();
    let sheet = [0, 2, 0, 0, 0, 0, 32, 2, 1, 65, 66, 32, 2, 1, 66, 65, 32, 1, 1, 65, 66];
    assert_eq!(reply.sheet_words(), sheet);
}
