//! Causes and numbers: the script check's causes where two hold at once.

mod support;

use support::{assemble, checked};

fn check(text: &str, number: u64, offset: usize) {
    assert_eq!(checked(&assemble(text)), (number, offset), "{text}");
}

#[test]
fn a_mark_before_its_fields() {
    check("BK 1 0, GO", 3, 6);
    check("BK 1 0, VR", 2, 6);
    check("VR", 3, 0);
    check("BK 1", 2, 0);
}

#[test]
fn a_field_s_presence_before_its_range() {
    check("BK 1 1, LB 1", 2, 6);
    check("BK 1 1, LB 1 9", 4, 6);
    check("BK 0 1, AR 1 9 1", 2, 6);
    check("BK 0 1, AR 1 9 1 1", 4, 6);
}

#[test]
fn range_before_a_second_declaration() {
    check("BK 2 1, VR 1, LB 1 2, GO 1", 4, 10);
    check("BK 2 1, VR 1, LB 1 1, GO 1", 8, 10);
    check("BK 1 0, PR 1 2, FM 1 0, FM 1 3, BK 0 0", 4, 18);
    check("BK 1 0, PR 1 2, FM 1 0, FM 1 2, BK 0 0", 8, 18);
}

#[test]
fn nesting_before_names() {
    let deep = "BK 0 1, ".repeat(16);
    check(&(deep.clone() + "BK 33 0"), 6, 96);
    check(&(deep + "BK 33"), 2, 96);
    check("BK 2 0, VR 1, PR 1 33", 7, 10);
    check("BK 2 0, VR 1, PR 1 32", 8, 10);
}

#[test]
fn formals_belong_to_the_body() {
    check("BK 1 0, PR 1 1, FM 1 0, BK 1 0, VR 2", 0, 0);
    check("BK 1 0, PR 1 1, FM 2 0, BK 1 0, VR 2", 8, 24);
}

#[test]
fn structure_before_trailing_bytes_before_scope() {
    check("BK 0 2, GO 9, VR", 3, 10);
    check("BK 0 1, GO 9, VR", 5, 10);
    check("BK 0 1, GO 9", 9, 6);
}

#[test]
fn scope_in_file_order() {
    check("BK 1 1, PR 1 0, BK 0 1, GO 9, GO 1", 9, 18);
    check("BK 2 1, PR 1 0, BK 0 1, GO 2, LB 2 1, GO 1", 10, 28);
    check("BK 2 1, PR 1 0, BK 0 1, KN 2 5, VR 2, CL 1 0", 0, 0);
    check("BK 0 2, BK 1 0, VR 1, KN 1 1", 9, 16);
}

#[test]
fn names_of_a_record_left_to_right() {
    check("BK 1 1, LB 1 1, IF 1 9", 10, 12);
    check("BK 1 1, LB 1 1, IF 9 1", 9, 12);
    check("BK 1 1, VR 1, AR 1 0 1 9", 9, 10);
    check("BK 2 1, VR 1, LB 2 1, AR 2 0 9 1", 10, 16);
    check("BK 2 1, VR 1, LB 2 1, AR 1 0 2 9", 10, 16);
    check("BK 2 1, VR 1, LB 2 1, AR 1 0 9 2", 9, 16);
    check("BK 2 1, VR 1, LB 2 1, QY 1 2 9", 10, 16);
    check("BK 2 1, VR 1, LB 2 1, QY 1 9 2", 9, 16);
    check("BK 2 1, VR 1, LB 2 1, AD 2 9", 10, 16);
    check("BK 2 1, VR 1, LB 2 1, RM 9 2", 9, 16);
}

#[test]
fn arguments_of_a_call() {
    let procedure = "PR 1 1, FM 2 0, BK 0 0";
    check(&format!("BK 2 1, {procedure}, VR 3, CL 1 1 3"), 0, 0);
    check(&format!("BK 2 1, {procedure}, VR 3, CL 1 1 1"), 11, 28);
    check(&format!("BK 2 1, {procedure}, VR 3, CL 1 2 3 3"), 11, 28);
    check(&format!("BK 2 1, {procedure}, VR 3, CL 1 2 1 9"), 9, 28);
    check(&format!("BK 2 1, {procedure}, VR 3, CL 3 2 1 9"), 10, 28);
    check("BK 1 0, PR 1 1, FM 2 2, BK 0 1, CL 2 3 1 2 2", 0, 0);
    check("BK 1 0, PR 1 1, FM 2 2, BK 0 1, CL 2 3 1 2 9", 9, 24);
}
