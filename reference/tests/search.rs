//! The search's numbers and passers, which no answer has.

mod support;

use std::collections::BTreeSet;

use reference::search::{numbered, Found, State};
use reference::table::Table;
use reference::tree::{Action, Block, Declared, Name};
use support::{assemble, Call, B};

/// What is asked of the state after so many steps.
fn after<T>(text: &str, steps: usize, asked: impl Fn(&State) -> T) -> T {
    let program = reference::check(&assemble(text)).expect("a fit script");
    let numbered = numbered(&program);
    let mut state = State::new(&numbered.program, 16, 3, Table::new(&mut [], 0, &mut []));
    for _ in 0..steps {
        state.step().expect("it does not stop");
    }
    asked(&state)
}

/// F of each live activation, from the outermost.
fn passers(text: &str, steps: usize) -> Vec<Option<usize>> {
    after(text, steps, |state| state.activations.iter().map(|it| it.passer).collect())
}

/// What the first formal of an activation stands for.
fn first_parameter(text: &str, steps: usize, activation: usize) -> Found {
    after(text, steps, |state| state.numbered(activation).parameters[0])
}

#[test]
fn sample_b() {
    // Activation 2 hands its procedure 6 to activation 3, which calls it.
    assert_eq!(passers(B, 9), [None, None, None, Some(2)]);
}

/// Procedure 2 is declared in the program, written as an argument in 3's body (activation 2), handed
/// on by 4's (activation 3) and called by 5's (activation 4).
const TWO_FORMALS: &str = "BK 5 1, VR 1, PR 2 0, BK 0 1, KN 1 8, PR 3 0, BK 0 1, CL 4 1 2, \
                           PR 4 1, FM 6 2, BK 0 1, CL 5 1 6, PR 5 1, FM 7 2, BK 0 1, CL 7 0, CL 3 0";

#[test]
fn the_first_passer_goes_through_two_formals() {
    let declared = Found { activation: 1, declaration: 1, passer: Some(2) };
    assert_eq!(first_parameter(TWO_FORMALS, 2, 3), declared);
    assert_eq!(first_parameter(TWO_FORMALS, 3, 4), declared);
    // The body entered is sent to neither the declaring activation, nor the last passer, nor the caller.
    assert_eq!(passers(TWO_FORMALS, 4), [None, None, None, None, Some(2)]);
    assert_eq!(
        Call { n: 5, ..Call::new(assemble(TWO_FORMALS)) }.run().sheet_words(),
        [0, 2, 0, 8, 0, 0, 0, 0, 36, 2, 1, 62, 2, 1, 66, 88, 2, 1, 66, 16, 2, 1]
    );
}

#[test]
fn variables_and_labels_have_no_passer() {
    let text = "BK 3 1, VR 1, LB 2 1, PR 3 2, FM 4 0, FM 5 1, BK 0 1, CL 3 2 4 5, CL 3 2 1 2";
    for activation in [2, 3] {
        let found = first_parameter(text, 2, activation);
        assert_eq!(found, Found { activation: 1, declaration: 0, passer: None });
    }
    assert_eq!(passers(text, 2), [None, None, None]);
}

/// Procedure 1 declares variable 4 and procedure 5, which sets 4. Its first activation hands 5 to the
/// second, that one hands its formal on to the third, and the third calls it.
const THREE_OF_ONE: &str = "BK 4 1, VR 8, VR 9, PR 7 0, BK 0 0, PR 1 1, FM 2 2, BK 4 7, VR 4, \
                            PR 5 0, BK 0 1, KN 4 6, LB 10 7, LB 11 5, IF 9 10, IF 8 11, KN 8 1, \
                            CL 1 1 5, KN 9 1, CL 1 1 2, CL 2 0, CL 1 1 7";

#[test]
fn the_first_passer_s_own_variable_is_set() {
    assert_eq!(passers(THREE_OF_ONE, 12), [None, None, None, None, Some(2)]);
    let reply = Call { n: 12, name: 4, ..Call::new(assemble(THREE_OF_ONE)) }.run();
    let (program, body_of_5) = ([0, 2, 0, 1, 1, 0, 0], [54, 2, 2]);
    let first = [38, 5, 1, 67, 6, 0, 0, 0];
    let second = [38, 7, 1, 131, 0, 0, 0, 0];
    let third = [38, 8, 1, 131, 0, 0, 0, 0];
    let sheet = [&program[..], &first, &second, &third, &body_of_5].concat();
    assert_eq!(reply.sheet_words(), sheet);
    assert_eq!(reply.answer.designator, 130);
}

fn numbers(block: &Block, into: &mut Vec<Name>) {
    into.extend(block.declared_names());
    for declaration in &block.declarations {
        if let Declared::Procedure(procedure) = &declaration.declared {
            into.extend(procedure.formals.iter().map(|formal| formal.name));
            numbers(&procedure.body, into);
        }
    }
    for statement in &block.statements {
        if let Action::Block(inner) = &statement.action {
            numbers(inner, into);
        }
    }
}

#[test]
fn no_two_names_share_a_number() {
    let hidden = "BK 2 1, VR 1, PR 2 1, FM 1 0, BK 0 1, BK 1 0, VR 1, BK 1 0, VR 1";
    for text in [B, TWO_FORMALS, THREE_OF_ONE, hidden] {
        let program = reference::check(&assemble(text)).expect("a fit script");
        let mut all = Vec::new();
        numbers(&numbered(&program).program, &mut all);
        let different: BTreeSet<Name> = all.iter().copied().collect();
        assert_eq!(different.len(), all.len(), "{text}");
    }
}
