//! A run by static links and a display, written for speed. Each name is resolved once,
//! before the run, to the level and position that declare it.

mod flaw;
mod machine;
mod marks;
mod members;
mod misjudged;
mod outline;
mod program;
mod resolve;
mod right;
mod scope;
mod set;
mod sheet;

pub use flaw::{run_flawed, Flaw};
pub use right::is_right;

use crate::answer::{Answer, End};
use crate::cause::{Refusal, Refused};
use crate::check::length_fits;
use crate::judge::{copying_area, limits, list_length, sheet_and_records};
use crate::request::{Engine, Lent, Request};
use flaw::{Right, Variant};
use machine::Machine;
use members::Members;
use program::Program;
use right::{is_right_in, ROOM};
use set::Set;

/// The script check.
pub fn check(script: &[u8]) -> Result<(), Refused> {
    prepare(script).map(drop)
}

/// The whole call.
pub fn run(request: &Request, lent: Lent) -> Answer {
    run_variant::<Right>(request, lent)
}

fn prepare(script: &[u8]) -> Result<Program, Refused> {
    if !length_fits(script.len()) {
        return Err(Refusal::Length.at(0));
    }
    resolve::resolve(script, outline::outline(script)?)
}

fn run_variant<V: Variant>(request: &Request, lent: Lent) -> Answer {
    ROOM.with_borrow_mut(|room| match judge::<V>(request, &lent, room) {
        Err(refused) => Answer::refused(request, refused),
        Ok(program) => accepted::<V>(request, &program, lent, room),
    })
}

fn judge<V: Variant>(request: &Request, lent: &Lent, room: &mut Set) -> Result<Program, Refused> {
    limits(request)?;
    sheet_and_records(request, lent)?;
    misjudged::too_soon::<V>(request, lent)?;
    list_length(lent)?;
    let g = if V::FLAW == Some(Flaw::LimitUnjudged) { u32::MAX } else { request.g };
    let mut right = |groups| is_right_in(room, lent.table, request.count, g, groups);
    let right = match V::FLAW {
        None => right(lent.groups),
        Some(_) => right(&misjudged::taken::<V>(request, lent)),
    };
    if !right {
        return Err(Refusal::Table.at(0));
    }
    let program = prepare(request.script)?;
    copying_area(request)?;
    Ok(program)
}

fn accepted<V: Variant>(
    request: &Request,
    program: &Program,
    lent: Lent,
    room: &mut Set,
) -> Answer {
    let members = Members::new(lent.table, request.count, lent.groups, request.g, room);
    let mut machine = Machine::new(program, members, request.d);
    let (end, steps) = machine.run::<V>(request.n);
    let (designator, links) = machine.looked_up(request.name);
    Answer {
        end,
        steps: steps.into(),
        offset: if matches!(end, End::Stopped(_)) { machine.offset() } else { 0 },
        pairs: machine.members.count() as u64,
        sheet: machine.write::<V>(lent.sheet) as u64,
        tally: request.tally + u64::from(steps),
        designator,
        links: if matches!(request.engine, Engine::Chain { .. }) { links } else { 0 },
    }
}
