//! A run by the F-search (source 001, section 5): names by number, sought along the callers. No
//! static link, display or copied text is kept.

mod find;
mod prepass;
mod sheet;
mod state;
mod step;

pub use prepass::{numbered, Numbered};
pub use state::{Activation, Found, State};

use crate::answer::{Answer, End};
use crate::judge::judge;
use crate::request::{Lent, Request};
use crate::table::Table;

/// The whole call, for `Engine::Search`: it follows no links and reports none.
pub fn run(request: &Request, lent: Lent) -> Answer {
    match judge(request, &lent) {
        Err(refused) => Answer::refused(request, refused),
        Ok(program) => accepted(request, &numbered(&program), lent),
    }
}

fn accepted(request: &Request, numbered: &Numbered, lent: Lent) -> Answer {
    let table = Table::new(lent.table, request.count, lent.groups);
    let (d, g) = (request.d as usize, request.g as usize);
    let mut state = State::new(&numbered.program, d, g, table);
    let (end, steps) = until_end(&mut state, request.n.into());
    let words = state.sheet();
    lent.sheet[..words.len()].copy_from_slice(&words);
    Answer {
        end,
        steps,
        offset: if matches!(end, End::Stopped(_)) { state.offset() as u64 } else { 0 },
        pairs: state.table.count() as u64,
        sheet: words.len() as u64,
        tally: request.tally + steps,
        designator: state.looked_up(numbered, request.name.into()) as u64,
        links: 0,
    }
}

fn until_end(state: &mut State, allowance: u64) -> (End, u64) {
    let mut steps = 0;
    while !state.activations.is_empty() {
        if steps == allowance {
            return (End::Spent, steps);
        }
        if let Err(cause) = state.step() {
            return (End::Stopped(cause), steps);
        }
        steps += 1;
    }
    (End::Finished, steps)
}
