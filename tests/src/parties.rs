//! The implementations. A further one is a name, a function from a call to a reply and one
//! from a script to a verdict.

use reference::fast::{run_flawed, Flaw};
use reference::{Answer, Lent, Refused, Request};

use crate::call::{Call, Engine, Reply, Verdict};
use crate::quiet::quietly;

pub type Run = Box<dyn Fn(&Call) -> Reply>;
pub type Check = Box<dyn Fn(&[u8]) -> Verdict>;

pub struct Party {
    pub name: &'static str,
    pub run: Run,
    pub check: Check,
}

/// The yardstick against which the others are held.
pub fn copy_rule() -> Party {
    Party {
        name: "copy rule",
        run: Box::new(|call| reply(call, reference::run)),
        check: Box::new(|script| verdict(reference::check(script).map(drop))),
    }
}

pub fn fast() -> Party {
    Party {
        name: "fast",
        run: Box::new(|call| reply(call, reference::fast::run)),
        check: Box::new(|script| verdict(reference::fast::check(script))),
    }
}

/// By search, for calls to that engine.
pub fn search() -> Party {
    Party {
        name: "search",
        run: Box::new(|call| reply(call, reference::search::run)),
        check: copy_rule().check,
    }
}

/// The proved library's script check, through its C interface.
#[cfg(feature = "enrol")]
pub fn library_check() -> Check {
    Box::new(|script| match binding::enrol::guarded_check(script) {
        Ok([number, offset]) => Ok((number, offset)),
        Err(strayed) => Err(strayed.to_string()),
    })
}

/// The proved library's engines, through its C interface.
#[cfg(feature = "enrol")]
pub fn library() -> Party {
    Party { name: "library", run: Box::new(library_reply), check: library_check() }
}

#[cfg(feature = "enrol")]
fn library_reply(call: &Call) -> Reply {
    use binding::enrol::{
        guarded_chain, guarded_copy, guarded_display, guarded_search, Asked, Ran,
    };
    let Call { d, n, g, tally, count, name, .. } = *call;
    let asked = Asked { d, n, g, tally, count, name };
    let Call { script, table, groups, sheet, working, .. } = call;
    let ran = match call.engine {
        Engine::Display => guarded_display(script, &asked, table, groups, sheet),
        Engine::Chain => guarded_chain(script, &asked, table, groups, sheet, working),
        Engine::Copying => guarded_copy(script, &asked, table, groups, sheet, working),
        Engine::Search => guarded_search(script, &asked, table, groups, sheet),
    };
    let Ran { answer, table, groups, sheet, working } = ran.unwrap_or_else(|it| panic!("{it}"));
    Reply { answer, table, groups, sheet, working }
}

/// Wrong on purpose; going astray so far that it panics counts as a wrong reply.
pub fn flawed(flaw: Flaw) -> Party {
    Party {
        name: "flawed",
        run: Box::new(move |call| {
            let run = || reply(call, |request, lent| run_flawed(flaw, request, lent));
            quietly(run).unwrap_or_else(|| no_reply(call))
        }),
        check: fast().check,
    }
}

fn reply(call: &Call, run: impl Fn(&Request, Lent) -> Answer) -> Reply {
    let mut reply = no_reply(call);
    let Reply { table, groups, sheet, .. } = &mut reply;
    reply.answer = run(&request(call), Lent { table, groups, sheet }).words();
    reply
}

/// All that was lent as it was.
fn no_reply(call: &Call) -> Reply {
    Reply {
        answer: [u64::MAX; 9],
        table: call.table.clone(),
        groups: call.groups.clone(),
        sheet: call.sheet.clone(),
        working: call.working.clone(),
    }
}

fn request(call: &Call) -> Request<'_> {
    let engine = match call.engine {
        Engine::Copying => reference::Engine::Copying { area: call.working.len() },
        Engine::Chain => reference::Engine::Chain { records: call.working.len() / 3 },
        Engine::Display => reference::Engine::Display,
        Engine::Search => reference::Engine::Search,
    };
    Request {
        engine,
        script: &call.script,
        d: call.d,
        n: call.n,
        g: call.g,
        tally: call.tally,
        count: call.count,
        name: call.name,
    }
}

fn verdict(result: Result<(), Refused>) -> Verdict {
    let refused = |it: Refused| (it.cause as u64, it.offset as u64);
    Ok(result.map_or_else(refused, |()| (0, 0)))
}
