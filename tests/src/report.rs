//! A failing call written so that it can be run again.

use std::fmt::Write;

use crate::call::{Call, Engine};
use crate::lent::pattern;

pub fn hex(bytes: &[u8]) -> String {
    if bytes.is_empty() {
        return "-".into();
    }
    bytes.iter().map(|byte| format!("{byte:02x}")).collect()
}

fn list(words: &[i32]) -> String {
    if words.is_empty() {
        return ".".into();
    }
    words.iter().map(i32::to_string).collect::<Vec<_>>().join(",")
}

/// One line: engine, the fields of a line of runs.txt, and the lengths lent.
pub fn line(call: &Call) -> String {
    let mut line = match call.engine {
        Engine::Copying => String::from("copy"),
        Engine::Chain => String::from("chain"),
        Engine::Display => String::from("display"),
        Engine::Search => String::from("search"),
    };
    let Call { d, n, g, tally, count, name, .. } = call;
    let (script, table, groups) = (hex(&call.script), list(&call.table), list(&call.groups));
    let (sheet, working) = (call.sheet.len(), call.working.len());
    write!(line, " {script} {d} {n} {g} {tally} {count} {name} {table} {groups} {sheet} {working}")
        .expect("a string takes all that is written");
    line
}

/// The call of a line.
pub fn parse(line: &str) -> Option<Call> {
    let fields: Vec<&str> = line.split_whitespace().collect();
    let [engine, script, d, n, g, tally, count, name, table, groups, sheet, working] = fields[..]
    else {
        return None;
    };
    Some(Call {
        engine: match engine {
            "copy" => Engine::Copying,
            "chain" => Engine::Chain,
            "display" => Engine::Display,
            "search" => Engine::Search,
            _ => return None,
        },
        script: bytes(script)?,
        d: d.parse().ok()?,
        n: n.parse().ok()?,
        g: g.parse().ok()?,
        tally: tally.parse().ok()?,
        count: count.parse().ok()?,
        name: name.parse().ok()?,
        table: words(table)?,
        groups: words(groups)?,
        sheet: (0..sheet.parse().ok()?).map(|index| pattern(index) as i32).collect(),
        working: (0..working.parse().ok()?).map(pattern).collect(),
    })
}

pub fn bytes(hex: &str) -> Option<Vec<u8>> {
    let hex = if hex == "-" { "" } else { hex };
    let byte = |at| u8::from_str_radix(hex.get(at..at + 2)?, 16).ok();
    (0..hex.len()).step_by(2).map(byte).collect()
}

pub fn words(list: &str) -> Option<Vec<i32>> {
    let list = if list == "." { "" } else { list };
    list.split(',').filter(|word| !word.is_empty()).map(|word| word.parse().ok()).collect()
}
