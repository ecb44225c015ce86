//! Runs a reported case again, a call as one line or a script in hex, and prints what each
//! implementation makes of it.

use differential::call::{Call, Engine, Verdict};
use differential::listing::listing;
use differential::parties::{copy_rule, fast, search};
use differential::report::{bytes, parse};

fn main() {
    let line = std::env::args().skip(1).collect::<Vec<_>>().join(" ");
    if let Some(call) = parse(&line) {
        checks(&call.script);
        runs(&call);
    } else if let Some(script) = bytes(line.trim()) {
        checks(&script);
    } else {
        eprintln!("engine script d n g tally count name table groups sheet-length working-length");
        eprintln!("or: script");
        std::process::exit(2);
    }
}

fn checks(script: &[u8]) {
    let say = |name: &str, verdict: Verdict| println!("{name}: check {verdict:?}");
    println!("{}", listing(script));
    for party in [copy_rule(), fast()] {
        say(party.name, (party.check)(script));
    }
    #[cfg(feature = "enrol")]
    say("library", differential::parties::library_check()(script));
}

fn runs(call: &Call) {
    #[cfg(feature = "enrol")]
    let library = Some(differential::parties::library());
    #[cfg(not(feature = "enrol"))]
    let library = None;
    let by_search = (call.engine == Engine::Search).then(search);
    for party in [copy_rule(), fast()].into_iter().chain(by_search).chain(library) {
        let reply = (party.run)(call);
        let sheet = &reply.sheet[..reply.answer[5] as usize];
        println!("{}: answer {:?}", party.name, reply.answer);
        println!("  sheet {sheet:?}\n  table {:?}\n  groups {:?}", reply.table, reply.groups);
    }
}
