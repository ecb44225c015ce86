//! Causes and numbers: the refusals of a call in their order.

use crate::bounds::{ACTIVATIONS, ALLOWANCE, GROUP_LIMIT, SHEET_WORDS, TALLY};
use crate::cause::{Refusal, Refused};
use crate::check::check;
use crate::request::{Engine, Lent, Request};
use crate::table::{is_right, list_is_right, list_words};
use crate::tree::Block;

/// The tree of a script that is to be run.
pub fn judge(request: &Request, lent: &Lent) -> Result<Block, Refused> {
    limits(request)?;
    sheet_and_records(request, lent)?;
    list_length(lent)?;
    let right = is_right(lent.table, request.count, request.g)
        && list_is_right(lent.groups, lent.table, request.count);
    unless(right, Refusal::Table)?;
    let program = check(request.script)?;
    copying_area(request)?;
    Ok(program)
}

pub fn limits(request: &Request) -> Result<(), Refused> {
    let fit = (1..=ACTIVATIONS).contains(&request.d)
        && request.n <= ALLOWANCE
        && (1..=GROUP_LIMIT).contains(&request.g)
        && request.tally <= TALLY;
    unless(fit, Refusal::Limits)
}

pub fn sheet_and_records(request: &Request, lent: &Lent) -> Result<(), Refused> {
    let d = request.d as usize;
    let records_fit = match request.engine {
        Engine::Chain { records } => records >= d,
        Engine::Copying { .. } | Engine::Display | Engine::Search => true,
    };
    unless(lent.sheet.len() >= d * SHEET_WORDS && records_fit, Refusal::TooShort)
}

/// Beside a table of odd length too, which is refused after it.
pub fn list_length(lent: &Lent) -> Result<(), Refused> {
    unless(lent.groups.len() >= list_words(lent.table.len()), Refusal::TooShort)
}

/// Last, since its length depends on the script's.
pub fn copying_area(request: &Request) -> Result<(), Refused> {
    let fits = match request.engine {
        Engine::Copying { area } => area >= request.d as usize * (request.script.len() / 2),
        Engine::Chain { .. } | Engine::Display | Engine::Search => true,
    };
    unless(fits, Refusal::TooShort)
}

/// Refusals of the call itself have no record.
fn unless(fits: bool, refusal: Refusal) -> Result<(), Refused> {
    if fits {
        Ok(())
    } else {
        Err(refusal.at(0))
    }
}
