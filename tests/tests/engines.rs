//! The proved library's engines through the C interface, with guards around all that is lent.

use differential::call::{Call, Engine, ENGINES};
use differential::compare::assert_agree;
use differential::encode::written;
use differential::lent::{pattern, to, SHEET_WORDS};
use differential::parties::{copy_rule, fast, library, Party};
use differential::report::{bytes, words};
use differential::{inputs, lists, table_work};

fn hold(judge: &Party, origin: &str, call: &Call) {
    for engine in ENGINES {
        assert_agree(judge, &library(), origin, &to(engine, call));
    }
}

#[test]
fn generated_calls() {
    let judge = fast();
    for seed in 51..=54 {
        for number in 0..50_000 {
            hold(&judge, &format!("seed {seed}, case {number}"), &inputs::case(seed, number));
        }
    }
}

#[test]
fn generated_calls_by_the_copy_rule() {
    let judge = copy_rule();
    for number in 0..10_000 {
        hold(&judge, &format!("seed 55, case {number}"), &inputs::case(55, number));
    }
}

#[test]
fn every_allowance_and_name() {
    let judge = fast();
    for number in 0..200 {
        let call = inputs::case(56, number);
        for n in 0..=call.n.min(60) {
            for name in 0..16 {
                let origin = format!("seed 56, case {number}");
                hold(&judge, &origin, &Call { n, name, ..call.clone() });
            }
        }
    }
}

/// Every field of a script that may be a name of the generator's (those below 15, and a few large ones), and a name that is none.
fn names_in(script: &[u8]) -> Vec<u16> {
    let fields = script.chunks_exact(2).map(|pair| u16::from_le_bytes([pair[0], pair[1]]));
    let large = [257, 258, 513, 65_534, 65_535];
    let mut names: Vec<u16> = fields.filter(|it| *it < 15 || large.contains(it)).collect();
    names.push(40);
    names.sort_unstable();
    names.dedup();
    names
}

/// Demands 2 and 3: all engines and the reference at every allowance up to the run's end, with every name of the script looked up.
#[test]
fn whole_runs_at_every_allowance() {
    let (judge, library) = (fast(), library());
    let mut runs = 0;
    for number in 0..2_000 {
        let case = inputs::case(60, number);
        let case = to(Engine::Display, &Call { n: 60, d: case.d.min(12), ..case });
        let calls = ENGINES.map(|engine| to(engine, &case));
        let whole = (judge.run)(&case);
        if whole.refused() {
            continue;
        }
        for n in 0..=whole.answer[2] as u32 {
            for name in names_in(&case.script) {
                let right = (judge.run)(&Call { n, name, ..calls[1].clone() });
                for call in &calls {
                    let origin = format!("seed 60, case {number}, allowance {n}, name {name}");
                    let reply = (library.run)(&Call { n, name, ..call.clone() });
                    let links = if call.engine == Engine::Chain { right.answer[8] } else { 0 };
                    assert_eq!(reply.answer[..8], right.answer[..8], "{origin}");
                    assert_eq!(reply.answer[8], links, "{origin}");
                    assert_eq!(
                        (&reply.sheet, &reply.table, &reply.groups),
                        (&right.sheet, &right.table, &right.groups),
                        "{origin}"
                    );
                }
                runs += 1;
            }
        }
    }
    assert!(runs > 50_000, "only {runs} runs");
}

#[test]
fn long_runs() {
    let judge = fast();
    for number in 0..200 {
        let call = Call { n: 20_000, ..inputs::case(57, number) };
        hold(&judge, &format!("seed 57, case {number}"), &call);
    }
}

#[test]
fn busy_tables() {
    let judge = fast();
    for number in 0..400 {
        hold(&judge, &format!("table seed 58, case {number}"), &table_work::case(58, number));
    }
}

/// Two blocks, one inside the other, and a variable in each.
const NESTED: &str = "424b01000100565201 00424b0100010056520200 4b4e020007000000";

fn plain() -> Call {
    Call {
        engine: Engine::Display,
        script: bytes(&NESTED.replace(' ', "")).expect("hex"),
        d: 2,
        n: 2,
        g: 3,
        tally: 0,
        count: 0,
        name: 2,
        table: vec![0; 16],
        groups: vec![0; 16],
        sheet: sheet(2 * SHEET_WORDS),
        working: Vec::new(),
    }
}

/// The argument 1 is called as a local of the body is: the formal 3 stands for the outer 1, and the body's own 1 is another.
#[test]
fn an_argument_called_as_a_local_of_the_body() {
    let script = written("BK 2 1 VR 1 PR 2 1 FM 3 0 BK 1 2 VR 1 KN 1 7 0 KN 3 9 0 CL 2 1 1");
    let call = Call { script, n: 3, name: 1, ..plain() };
    for engine in ENGINES {
        let reply = (library().run)(&to(engine, &call));
        assert_eq!(reply.answer[..8], [1, 0, 3, 0, 0, 10, 3, 130], "{engine:?}");
        assert_eq!(reply.sheet[..10], [0, 2, 0, 9, 0, 22, 3, 1, 65, 7], "{engine:?}");
    }
}

/// The first activation of 1 hands its procedure 5 to the second, that one hands its formal on to the third, and the third calls it.
#[test]
fn a_procedure_handed_on_twice() {
    let script = written(
        "BK 4 1 VR 8 VR 9 PR 7 0 BK 0 0 PR 1 1 FM 2 2
         BK 4 7 VR 4 PR 5 0 BK 0 1 KN 4 6 0 LB 10 7 LB 11 5
         IF 9 10 IF 8 11 KN 8 1 0 CL 1 1 5 KN 9 1 0 CL 1 1 2 CL 2 0
         CL 1 1 7",
    );
    let call = Call { script, d: 5, n: 12, name: 4, sheet: sheet(5 * SHEET_WORDS), ..plain() };
    let program = [0, 2, 0, 1, 1, 0, 0];
    let (first, second) = ([38, 5, 1, 67, 6, 0, 0, 0], [38, 7, 1, 131, 0, 0, 0, 0]);
    let (third, called) = ([38, 8, 1, 131, 0, 0, 0, 0], [54, 2, 2]);
    let words = [&program[..], &first, &second, &third, &called].concat();
    for engine in ENGINES {
        let reply = (library().run)(&to(engine, &call));
        assert_eq!(reply.answer[..8], [1, 0, 12, 0, 0, 34, 12, 130], "{engine:?}");
        assert_eq!(reply.sheet[..34], words, "{engine:?}");
    }
}

fn sheet(length: usize) -> Vec<i32> {
    (0..length).map(|index| pattern(index) as i32).collect()
}

#[test]
fn limits_on_both_sides_of_their_bounds() {
    let judge = copy_rule();
    let mut calls = Vec::new();
    for d in [0, 1, 2, 255, 256, 257, u32::MAX] {
        let activations = (d as usize).min(257);
        let asked = SHEET_WORDS * activations;
        // A word too few for each activation, and for all of them together.
        let short = [asked - activations, asked.saturating_sub(1)];
        for length in [0, short[0], short[1], asked, asked + 1] {
            calls.push(Call { d, sheet: sheet(length), ..plain() });
        }
    }
    for n in [0, 1, 5, 999_999, 1_000_000, 1_000_001, u32::MAX] {
        calls.push(Call { n, ..plain() });
    }
    for g in [0, 1, 65_535, 65_536, u32::MAX] {
        calls.push(Call { g, ..plain() });
    }
    for tally in [0, 999_999_999_999, 1_000_000_000_000, 1_000_000_000_001, u64::MAX] {
        calls.push(Call { tally, ..plain() });
    }
    for name in [0, 1, 2, 3, 65_535] {
        calls.push(Call { name, ..plain() });
    }
    for (number, call) in calls.iter().enumerate() {
        hold(&judge, &format!("limits, case {number}"), call);
    }
}

/// A word too few, just enough and more, for tables of even and odd length; before the table's own refusal and after a sheet that
/// fits.
#[test]
fn lists_on_both_sides_of_their_bound() {
    let judge = copy_rule();
    for length in 0..=9 {
        for count in [0, length / 2, length / 2 + 1] {
            let table: Vec<i32> = (1..=length as i32).collect();
            let needed = lists::right(&table, count);
            for short in [&needed[..], &needed[..needed.len().saturating_sub(1)], &[]] {
                for past in [&[][..], &[0], &[-1, 5, 7]] {
                    let groups = [short, past].concat();
                    let call = Call { table: table.clone(), count, groups, ..plain() };
                    hold(&judge, &format!("a table of {length} words, count {count}"), &call);
                }
            }
        }
    }
}

/// KN 1, KN 2 and a statement on the pair, for each.
fn on_pairs(statements: &[(&str, i32, i32)]) -> Vec<u8> {
    let mut script = written(&format!("BK 2 {} VR 1 VR 2", 3 * statements.len()));
    for (mark, group, member) in statements {
        for (name, number) in [(1, group), (2, member)] {
            script.extend(written(&format!("KN {name}")));
            script.extend(number.to_le_bytes());
        }
        script.extend(written(&format!("{mark} 1 2")));
    }
    script
}

/// A table at an edge of what a list can be, with room for one more pair or none.
fn at_an_edge(what: usize, pairs: i32, room: bool) -> Call {
    let pair = |number: i32| match what {
        0 => [i32::MAX, number + 1],
        1 => [1, i32::MAX - number],
        2 => [2 * number + 2, i32::MAX],
        3 => [i32::MAX - 2 * number - 1, 1],
        _ => [number / 3 * 2 + 2, number % 3 + 1],
    };
    let mut table: Vec<i32> = (0..pairs).flat_map(pair).collect();
    if room {
        table.extend([0, 0]);
    }
    let groups = lists::right(&table, pairs as usize);
    Call { d: 1, n: 1_000, g: 65_535, count: pairs as usize, table, groups, ..plain() }
}

/// A new group before, between and after the others, a member more and one fewer, the last of a group.
fn edge_statements(call: &Call) -> Vec<(&'static str, i32, i32)> {
    let (first, last) = (&call.table[..2], &call.table[2 * call.count - 2..2 * call.count]);
    let between = call.groups[0].saturating_add(1);
    vec![
        ("RM", last[0], last[1]),
        ("AD", 1, 1),
        ("RM", 1, 1),
        ("AD", between, 77),
        ("RM", between, 77),
        ("AD", i32::MAX, i32::MAX),
        ("RM", i32::MAX, i32::MAX),
        ("RM", first[0], first[1]),
        ("AD", first[0], 99_999),
        ("AD", last[0], last[1]),
        ("AD", i32::MAX - 1, 5),
    ]
}

/// One group, each pair its own, groups of three; after every statement.
#[test]
fn large_lists_at_their_edges() {
    let judge = fast();
    for (what, pairs) in (0..5).flat_map(|what| [(what, 1), (what, 70), (what, 3_000)]) {
        for room in [false, true] {
            let call = at_an_edge(what, pairs, room);
            let statements = edge_statements(&call);
            for done in 1..=statements.len() {
                let call = Call { script: on_pairs(&statements[..done]), ..call.clone() };
                hold(&judge, &format!("edge {what}, {pairs} pairs, {done} done"), &call);
            }
        }
    }
}

/// Group 1 has as many members as G lets it; the list alone says so.
#[test]
fn a_group_at_the_limit() {
    let judge = copy_rule();
    for g in [1, 2, 300, 65_535] {
        for missing in [0, 1] {
            let pairs = g as i32 - missing;
            let mut table: Vec<i32> = (0..pairs).flat_map(|member| [1, member + 1]).collect();
            table.extend([0; 4]);
            let groups = lists::right(&table, pairs as usize);
            let script = on_pairs(&[("AD", 1, 70_000), ("AD", 1, 70_001)]);
            let call = Call { script, n: 9, g, count: pairs as usize, table, groups, ..plain() };
            hold(&judge, &format!("G {g}, {missing} missing"), &call);
        }
    }
}

fn list(words: &[i32]) -> String {
    if words.is_empty() {
        return ".".into();
    }
    words.iter().map(i32::to_string).collect::<Vec<_>>().join(",")
}

fn call_of(fed: &str) -> Option<Call> {
    let fed: Vec<&str> = fed.split(' ').collect();
    let d: u32 = fed[1].parse().ok()?;
    Some(Call {
        engine: Engine::Display,
        script: bytes(fed[0])?,
        d,
        n: fed[2].parse().ok()?,
        g: fed[3].parse().ok()?,
        tally: fed[4].parse().ok()?,
        count: fed[5].parse().ok()?,
        name: fed[6].parse().ok()?,
        table: words(fed[7])?,
        groups: words(fed[8])?,
        sheet: sheet(SHEET_WORDS * d.min(256) as usize),
        working: Vec::new(),
    })
}

#[test]
fn every_vector() {
    let text = include_str!("../vectors/runs.txt");
    let lines: Vec<&str> = text.lines().filter(|line| !line.starts_with('#')).collect();
    for (number, line) in lines.iter().enumerate() {
        let (fed, given) = line.split_once(" | ").expect("what is fed and what is given");
        let call = call_of(fed).expect("a call");
        for engine in ENGINES {
            let mut given: Vec<&str> = given.split(' ').collect();
            if engine != Engine::Chain {
                given[7] = "0";
            }
            let reply = (library().run)(&to(engine, &call));
            let [end, number_of, steps, offset, pairs, written, tally, designator, links] =
                reply.answer;
            let end = ["finished", "spent", "stopped", "refused"][end as usize];
            let (sheet, rest) = reply.sheet.split_at(written as usize);
            let got = format!(
                "{end} {number_of} {steps} {offset} {pairs} {tally} {designator} {links} {} {} {}",
                list(sheet),
                list(&reply.table),
                list(&reply.groups),
            );
            assert_eq!(got, given.join(" "), "run {}", number + 1);
            assert_eq!(rest, &call.sheet[written as usize..], "run {}: past the sheet", number + 1);
        }
    }
    assert_eq!(lines.len(), 530);
}

/// Every way through a call on little stack: the deepest script, a large table, a stop, a refusal.
#[test]
fn a_small_stack() {
    let calls = || {
        let judge = fast();
        for number in 0..300 {
            hold(&judge, &format!("seed 59, case {number}"), &inputs::case(59, number));
        }
        let table: Vec<i32> =
            (0..100_000).flat_map(|pair| [1 + pair / 50, 1 + pair % 50]).collect();
        let groups = lists::right(&table, 100_000);
        let large = Call { g: 50, count: 100_000, table, groups, ..plain() };
        hold(&judge, "a large table", &large);
    };
    std::thread::Builder::new()
        .stack_size(512 * 1024)
        .spawn(calls)
        .expect("a thread")
        .join()
        .expect("it returns");
}
