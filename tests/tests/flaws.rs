//! Deliberately wrong engines are told from a right one by dozens of generated cases.

use differential::call::Call;
use differential::compare::wrong;
use differential::inputs::case;
use differential::parties::{copy_rule, fast, flawed};
use differential::quiet::quietly;
use reference::fast::Flaw;
use reference::search::{numbered, State};
use reference::table::Table;
use reference::tree::Block;

const CASES: u64 = 10_000;
const LEAST: usize = 24;

fn cases() -> impl Iterator<Item = Call> {
    (0..CASES).map(|number| case(1, number))
}

fn enough(flaw: &str, wrong: usize) {
    println!("{flaw}: {wrong} of {CASES} wrong");
    assert!(wrong >= LEAST, "{flaw} is wrong in {wrong} of {CASES} cases");
}

fn told(flaw: Flaw) {
    enough(&format!("{flaw:?}"), wrong(&copy_rule(), &flawed(flaw), cases()));
}

#[test]
fn newest_link() {
    told(Flaw::NewestLink);
}

#[test]
fn stale_display() {
    told(Flaw::StaleDisplay);
}

#[test]
fn late_group_limit() {
    told(Flaw::LateGroupLimit);
}

#[test]
fn caller_shown() {
    told(Flaw::CallerShown);
}

#[test]
fn newest_shown() {
    told(Flaw::NewestShown);
}

#[test]
fn number_not_lowered() {
    told(Flaw::NumberNotLowered);
}

#[test]
fn empty_group_kept() {
    told(Flaw::EmptyGroupKept);
}

#[test]
fn freed_place_kept() {
    told(Flaw::FreedPlaceKept);
}

#[test]
fn new_group_last() {
    told(Flaw::NewGroupLast);
}

/// One rule of the list after the other.
#[test]
fn lists_misjudged() {
    told(Flaw::ListUnjudged);
    told(Flaw::OrderUnjudged);
    told(Flaw::EmptyPlacesPassed);
    told(Flaw::UnusedUnjudged);
    told(Flaw::SumAlone);
    told(Flaw::LimitUnjudged);
    told(Flaw::WholeListJudged);
    told(Flaw::ListLengthLate);
}

/// The sheet where a run by search ends whose state is spoiled after each step; none if it panics.
fn sheet(program: &Block, call: &Call, spoil: fn(&mut State)) -> Option<Vec<i32>> {
    quietly(|| {
        let (mut words, mut groups) = (call.table.clone(), call.groups.clone());
        let table = Table::new(&mut words, call.count, &mut groups);
        let mut state = State::new(program, call.d as usize, call.g as usize, table);
        for _ in 0..call.n {
            if state.activations.is_empty() || state.step().is_err() {
                break;
            }
            spoil(&mut state);
        }
        state.sheet()
    })
}

fn misled(call: &Call, prepass: fn(&Block) -> Block, spoil: fn(&mut State)) -> bool {
    let right = (fast().run)(call);
    if right.refused() {
        return false;
    }
    let program = reference::check(&call.script).expect("the call is not refused");
    let written = right.answer[5] as usize;
    sheet(&prepass(&program), call, spoil).as_deref() != Some(&right.sheet[..written])
}

fn told_by_sheets(flaw: &str, prepass: fn(&Block) -> Block, spoil: fn(&mut State)) {
    enough(flaw, cases().filter(|call| misled(call, prepass, spoil)).count());
}

fn with_numbers(program: &Block) -> Block {
    numbered(program).program
}

#[test]
fn search_with_names_as_written() {
    told_by_sheets("names as written", Block::clone, |_| ());
}

#[test]
fn search_along_all_callers() {
    told_by_sheets("no passer", with_numbers, |state| {
        state.activations.iter_mut().for_each(|it| it.passer = None);
    });
}

#[test]
fn search_from_the_last_passer() {
    told_by_sheets("last passer", with_numbers, |state| {
        let caller = state.activations.len().checked_sub(1);
        let innermost = state.activations.last_mut();
        for parameter in innermost.into_iter().flat_map(|it| &mut it.parameters) {
            parameter.passer = parameter.passer.and(caller);
        }
    });
}
