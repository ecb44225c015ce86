//! The copy rule, written out: a run by real copies of text, plain and slow.

mod links;
mod machine;
mod rename;
mod sheet;
mod step;

use crate::answer::{Answer, End};
use crate::judge::judge;
use crate::request::{Engine, Lent, Request};
use crate::table::Table;
use crate::tree::Block;
use machine::Machine;

/// The whole call.
pub fn run(request: &Request, lent: Lent) -> Answer {
    match judge(request, &lent) {
        Err(refused) => Answer::refused(request, refused),
        Ok(program) => accepted(request, &program, lent),
    }
}

fn accepted(request: &Request, program: &Block, lent: Lent) -> Answer {
    let table = Table::new(lent.table, request.count, lent.groups);
    let mut machine = Machine::new(program, request.d as usize, request.g as usize, table);
    let (end, steps, offset) = until_end(&mut machine, u64::from(request.n));
    let words = machine.sheet();
    lent.sheet[..words.len()].copy_from_slice(&words);
    Answer {
        end,
        steps,
        offset: offset as u64,
        pairs: machine.table.count() as u64,
        sheet: words.len() as u64,
        tally: request.tally + steps,
        designator: machine.looked_up(request.name.into()) as u64,
        links: match request.engine {
            Engine::Chain { .. } => links_followed(&machine, program, request) as u64,
            Engine::Copying { .. } | Engine::Display | Engine::Search => 0,
        },
    }
}

/// The tests before each step, in their order.
fn until_end(machine: &mut Machine, allowance: u64) -> (End, u64, usize) {
    let mut steps = 0;
    loop {
        if machine.activations.is_empty() {
            return (End::Finished, steps, 0);
        }
        if steps == allowance {
            return (End::Spent, steps, 0);
        }
        if let Some((cause, offset)) = machine.cause_to_stop() {
            return (End::Stopped(cause), steps, offset);
        }
        machine.step();
        steps += 1;
    }
}

fn links_followed(machine: &Machine, program: &Block, request: &Request) -> usize {
    match machine.activations.last() {
        Some(innermost) => links::followed(program, innermost.offset, request.name.into()),
        None => 0,
    }
}
