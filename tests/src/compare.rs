//! Holding implementations against each other.

use std::fmt::Display;

use crate::call::{Call, Reply};
use crate::listing::listing;
use crate::parties::{Check, Party};
use crate::reduce::{reduce, reduce_script};
use crate::report::{hex, line};

/// How a party's verdict on the script, or its reply to the call, differs from the judge's.
pub fn difference(judge: &Party, party: &Party, call: &Call) -> Option<String> {
    let (right, other) = ((judge.check)(&call.script), (party.check)(&call.script));
    if right != other {
        return Some(format!("check\n{}: {right:?}\n{}: {other:?}", judge.name, party.name));
    }
    let (right, other) = ((judge.run)(call), (party.run)(call));
    if right.agrees(&other) {
        return None;
    }
    Some(format!(
        "run\n{}: {}\n{}: {}\nlist {}, sheet {}, working area {}",
        judge.name,
        brief(&right),
        party.name,
        brief(&other),
        first_difference(&right.groups, &other.groups),
        first_difference(&right.sheet, &other.sheet),
        first_difference(&right.working, &other.working),
    ))
}

/// Without the pattern that lies past the sheet.
fn brief(reply: &Reply) -> String {
    let written = reply.sheet.len().min(reply.answer[5] as usize);
    let Reply { answer, table, groups, .. } = reply;
    let sheet = &reply.sheet[..written];
    format!("answer {answer:?}, sheet {sheet:?}, table {table:?}, list {groups:?}")
}

fn first_difference<T: Copy + PartialEq + Display>(right: &[T], other: &[T]) -> String {
    if right.len() != other.len() {
        return format!("lengths {} and {}", right.len(), other.len());
    }
    match right.iter().zip(other).position(|(right, other)| right != other) {
        Some(at) => format!("word {at}: {} and {}", right[at], other[at]),
        None => "alike".into(),
    }
}

pub fn agree(judge: &Party, party: &Party, call: &Call) -> bool {
    difference(judge, party, call).is_none()
}

/// Panics with all that is needed to run the case again, whole and cut down.
pub fn assert_agree(judge: &Party, party: &Party, origin: &str, call: &Call) {
    let Some(difference) = difference(judge, party, call) else { return };
    let small = reduce(call, &|candidate| !agree(judge, party, candidate));
    panic!(
        "{origin}\n{}\n{difference}\ncut down\n{}\n{}\n{}",
        line(call),
        line(&small),
        listing(&small.script),
        self::difference(judge, party, &small).expect("it still differs"),
    );
}

/// Panics with the script and both verdicts, whole and cut down. For a party that has only a check.
pub fn assert_same_verdict(judge: &Party, name: &str, check: &Check, origin: &str, script: &[u8]) {
    if (judge.check)(script) == check(script) {
        return;
    }
    let small = reduce_script(script, &|smaller| (judge.check)(smaller) != check(smaller));
    let verdicts = |script| {
        let (right, other) = ((judge.check)(script), check(script));
        format!("{}\n{}: {right:?}\n{name}: {other:?}", hex(script), judge.name)
    };
    panic!("{origin}\n{}\ncut down\n{}\n{}", verdicts(script), verdicts(&small), listing(&small),);
}

/// How many calls a party gets wrong.
pub fn wrong(judge: &Party, party: &Party, calls: impl Iterator<Item = Call>) -> usize {
    calls.filter(|call| !agree(judge, party, call)).count()
}
