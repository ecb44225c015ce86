//! State sheet: the number of the activation that encloses each one's text.

mod support;

use support::{assemble, Call};

fn sheet(text: &str, n: u32) -> Vec<i32> {
    Call { n, ..Call::new(assemble(text)) }.run().sheet_words().to_vec()
}

#[test]
fn a_block_is_enclosed_by_the_one_in_which_it_stands() {
    let text = "BK 0 1, BK 0 1, BK 0 0";
    assert_eq!(sheet(text, 2), [0, 2, 0, 6, 2, 1, 12, 1, 2]);
}

#[test]
fn a_body_is_enclosed_by_the_declaring_activation() {
    // Procedure 1 calls itself from a block of its body, so that no caller is an encloser but the program.
    let text = "BK 1 1, PR 1 0, BK 0 1, BK 0 1, CL 1 0, CL 1 0";
    let (program, body, block) = ([0, 2, 0, 0], [12, 2, 1], |encloser| [18, 2, encloser]);
    let twice = [&program[..], &body, &block(2), &body, &block(4), &[12, 1, 1]].concat();
    assert_eq!(sheet(text, 5), twice);
}

#[test]
fn each_of_two_activations_encloses_what_it_handed_down() {
    // Procedure 1 declares 3, whose body holds a block. Its second activation hands its own 3 to 5, which
    // calls it, or the 3 of the first that it was itself handed.
    let text = |handed: u16| {
        format!(
            "BK 4 1, VR 9, PR 5 1, FM 6 2, BK 0 1, CL 6 0, PR 7 0, BK 0 0, PR 1 1, FM 2 2, \
             BK 2 4, LB 4 4, PR 3 0, BK 0 1, BK 0 0, IF 9 4, KN 9 1, CL 1 1 3, CL 5 1 {handed}, CL 1 1 7"
        )
    };
    let last_three = |handed| sheet(&text(handed), 8)[19..].to_vec();
    assert_eq!(last_three(3), [22, 2, 1, 195, 76, 2, 3, 82, 1, 5]);
    assert_eq!(last_three(2), [22, 2, 1, 131, 76, 2, 2, 82, 1, 5]);
}

#[test]
fn a_goto_keeps_the_enclosers_below() {
    // The block of procedure 2 goes to the label of 1's body, then 2 is called again.
    let text =
        "BK 1 1, PR 1 0, BK 2 2, LB 3 2, PR 2 0, BK 0 1, BK 0 1, GO 3, CL 2 0, CL 2 0, CL 1 0";
    let (program, body) = ([0, 2, 0, 0], |next| [12, next, 1, 0, 0]);
    let below = |next| [&program[..], &body(next)].concat();
    assert_eq!(sheet(text, 3), [below(2), vec![30, 2, 2, 36, 1, 3]].concat());
    assert_eq!(sheet(text, 4), below(2));
    assert_eq!(sheet(text, 6), [below(3), vec![30, 2, 2, 36, 1, 3]].concat());
}
