//! Causes and numbers: limits, lent areas and the table at their bounds, and their order.

mod support;

use reference::{End, Engine, Lent, Refusal, Request};
use support::{assemble, Call, UNTOUCHED};

fn small() -> Call {
    Call { table: vec![1, 1, 1, 2, 0, 9], count: 2, ..Call::new(assemble("BK 1 1, VR 1, KN 1 5")) }
}

fn number(call: &Call, engine: Engine) -> u64 {
    let reply = call.on(engine);
    if let End::Refused(_) = reply.answer.end {
        let count = call.count as u64;
        let words = [3, reply.answer.number(), 0, reply.answer.offset, count, 0, call.tally, 0, 0];
        assert_eq!(reply.answer.words(), words);
        assert_eq!((reply.table, reply.groups), (call.table.clone(), call.lent_groups()));
        assert!(reply.sheet.iter().all(|&word| word == UNTOUCHED));
    }
    reply.answer.number()
}

/// By an engine that is lent nothing of its own.
fn plain(call: Call) -> u64 {
    let number_of = |engine| number(&call, engine);
    assert_eq!(number_of(Engine::Display), number_of(Engine::Search));
    number_of(Engine::Display)
}

#[test]
fn limits_at_their_bounds() {
    let sheet = 256 * 35;
    for (d, expected) in [(0, 12), (1, 0), (256, 0), (257, 12), (u32::MAX, 12)] {
        assert_eq!(plain(Call { d, sheet, ..small() }), expected, "D {d}");
    }
    for (g, expected) in [(0, 12), (1, 14), (2, 0), (65_535, 0), (65_536, 12)] {
        assert_eq!(plain(Call { g, ..small() }), expected, "G {g}");
    }
    for (tally, expected) in [(1_000_000_000_000, 0), (1_000_000_000_001, 12), (u64::MAX, 12)] {
        assert_eq!(plain(Call { tally, ..small() }), expected, "tally {tally}");
    }
}

#[test]
fn lent_areas_at_their_bounds() {
    assert_eq!(plain(Call { sheet: 16 * 34, ..small() }), 13);
    assert_eq!(plain(Call { sheet: 16 * 35 - 1, ..small() }), 13);
    assert_eq!(plain(Call { sheet: 16 * 35, ..small() }), 0);
    assert_eq!(plain(Call { sheet: 16 * 35 + 7, ..small() }), 0);
    assert_eq!(number(&small(), Engine::Chain { records: 15 }), 13);
    assert_eq!(number(&small(), Engine::Chain { records: 16 }), 0);
    let area = small().lent_area();
    assert_eq!(number(&small(), Engine::Copying { area: area - 1 }), 13);
    assert_eq!(number(&small(), Engine::Copying { area }), 0);
}

#[test]
fn table_right_or_not() {
    let table =
        |table: &[i32], count| plain(Call { g: 2, table: table.to_vec(), count, ..small() });
    assert_eq!(table(&[], 0), 0);
    assert_eq!(table(&[0], 0), 14);
    assert_eq!(table(&[1, 1, 2], 1), 14);
    assert_eq!(table(&[1, 1], 2), 14);
    assert_eq!(table(&[1, 1], usize::MAX), 14);
    assert_eq!(table(&[1, 0], 1), 14);
    assert_eq!(table(&[0, 1], 1), 14);
    assert_eq!(table(&[-1, 1], 1), 14);
    assert_eq!(table(&[-1, 0, 0, -7], 0), 0);
    assert_eq!(table(&[1, 1, 2, 1, 1, 1], 3), 14);
    assert_eq!(table(&[1, 1, 2, 1, 1, 1], 2), 0);
    assert_eq!(table(&[1, 1, 2, 1, 1, 2], 3), 0);
    assert_eq!(table(&[1, 1, 1, 3, 1, 2], 3), 14);
    assert_eq!(table(&[i32::MAX, i32::MAX, 1, i32::MAX], 2), 0);
}

#[test]
fn table_with_many_pairs() {
    let pairs = 300_000;
    let words = |last: [i32; 2]| -> Vec<i32> {
        let pair = |number: i32| [number % 5 + 1, number + 1];
        (0..pairs - 1).flat_map(pair).chain(last).collect()
    };
    let many = |last| Call { g: 60_000, table: words(last), count: 300_000, ..small() };
    assert_eq!(plain(many([5, pairs])), 0);
    assert_eq!(plain(many([5, 5])), 14);
    assert_eq!(plain(many([4, pairs])), 14);
}

/// Each call has the fault named and all those that come after it.
#[test]
fn causes_in_their_order() {
    let script = assemble("BK 0 1, GO 1");
    let area = Engine::Copying { area: 0 };
    let all = Call { d: 0, sheet: 0, count: 9, script: vec![], ..small() };
    assert_eq!(number(&all, area), 12);
    let sheet = Call { d: 16, ..all };
    assert_eq!(number(&sheet, area), 13);
    let records = Call { sheet: 16 * 35, ..sheet };
    assert_eq!(number(&records, Engine::Chain { records: 15 }), 13);
    assert_eq!(number(&records, area), 14);
    let length = Call { count: 2, ..records };
    assert_eq!(number(&length, area), 1);
    let name = Call { script, ..length };
    assert_eq!(number(&name, area), 9);
    let accepted = Call { script: assemble("BK 0 0"), ..name };
    assert_eq!(number(&accepted, area), 13);
}

#[test]
fn a_refusal_by_each_limit_is_its_own() {
    let call = small();
    let request = Request {
        engine: Engine::Display,
        script: &call.script,
        d: 1,
        n: 0,
        g: 1,
        tally: 0,
        count: 0,
        name: 0,
    };
    let faulty = [
        Request { d: 0, ..request },
        Request { n: 1_000_001, ..request },
        Request { g: 0, ..request },
        Request { tally: 1_000_000_000_001, ..request },
    ];
    let end = |request: &Request| {
        let lent = Lent { table: &mut [], groups: &mut [], sheet: &mut [0; 35] };
        reference::run(request, lent).end
    };
    for request in faulty {
        assert_eq!(end(&request), End::Refused(Refusal::Limits));
    }
    assert_eq!(end(&request), End::Spent);
}
