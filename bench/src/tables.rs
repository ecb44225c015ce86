//! The test of table and list together, and the search of a pair, on tables of many different pairs.

use std::collections::HashSet;
use std::hint::black_box;
use std::rc::Rc;

use binding::measure;
use differential::lists;
use differential::random::Random;
use reference::fast::is_right;
use reference::table::find;

use crate::row::Row;

const TESTED: [usize; 7] = [300, 1_000, 5_000, 20_000, 50_000, 200_000, 400_000];
const SEARCHED: [usize; 4] = [50_000, 100_000, 200_000, 400_000];
/// Stands in no table.
const ABSENT: (i32, i32) = (i32::MAX, i32::MAX);

/// Tables of any size, and a limit that all of them keep.
struct Kind {
    workload: &'static str,
    limit: u32,
    pair: fn(&mut Random, usize, usize) -> (i32, i32),
}

const KINDS: [Kind; 5] = [
    Kind { workload: "table and list", limit: 200, pair: random_pair },
    Kind { workload: "table and list, numbers in sequence", limit: 65_535, pair: pair_in_sequence },
    Kind { workload: "table and list, groups of G = 3", limit: 3, pair: pair_of_three },
    Kind { workload: "table and list, one group", limit: 400_000, pair: pair_of_one_group },
    Kind { workload: "table and list, each its own group", limit: 1, pair: pair_of_its_own },
];

/// Groups of about 16.
fn random_pair(random: &mut Random, count: usize, _: usize) -> (i32, i32) {
    (random.between(1, count / 16) as i32, member(random))
}

/// A thousand groups, or fewer of ten, each with the members 1, 2, 3 and so on.
fn pair_in_sequence(_: &mut Random, count: usize, at: usize) -> (i32, i32) {
    let groups = (count / 10).min(1_000);
    ((at % groups) as i32 + 1, (at / groups) as i32 + 1)
}

/// Three members a group, not beside each other.
fn pair_of_three(random: &mut Random, count: usize, at: usize) -> (i32, i32) {
    ((at % count.div_ceil(3)) as i32 + 1, member(random))
}

fn pair_of_one_group(random: &mut Random, _: usize, _: usize) -> (i32, i32) {
    (7, member(random))
}

/// With one number for all members no group can come again.
fn pair_of_its_own(random: &mut Random, _: usize, _: usize) -> (i32, i32) {
    (random.between(1, i32::MAX as usize - 1) as i32, 1)
}

fn member(random: &mut Random) -> i32 {
    random.between(1, i32::MAX as usize - 1) as i32
}

pub fn rows() -> Vec<Row> {
    let tests = KINDS.iter().flat_map(|kind| TESTED.map(|count| test(kind, table(kind, count))));
    let searches = SEARCHED.map(|count| search(table(&KINDS[0], count)));
    tests.chain(searches).collect()
}

fn table(kind: &Kind, count: usize) -> Rc<Vec<i32>> {
    let random = &mut Random::new(1, count as u64);
    let (mut seen, mut words) = (HashSet::new(), Vec::new());
    while seen.len() < count {
        let (group, member) = (kind.pair)(random, count, seen.len());
        if seen.insert((group, member)) {
            words.extend([group, member]);
        }
    }
    Rc::new(words)
}

fn size(table: &[i32]) -> String {
    format!("{} pairs", table.len() / 2)
}

fn test(kind: &Kind, table: Rc<Vec<i32>>) -> Row {
    let (count, limit) = (table.len() / 2, kind.limit);
    let groups = Rc::new(lists::right(&table, count));
    assert!(measure::right(&table, count, limit, &groups), "{}", kind.workload);
    assert!(is_right(&table, count, limit, &groups), "{}", kind.workload);
    let (same, same_groups) = (table.clone(), groups.clone());
    Row {
        workload: kind.workload.into(),
        size: size(&table),
        library: Box::new(move || {
            black_box(measure::right(black_box(&table), count, limit, &groups));
        }),
        reference: Box::new(move || {
            black_box(is_right(black_box(&same), count, limit, &same_groups));
        }),
    }
}

fn search(table: Rc<Vec<i32>>) -> Row {
    let count = table.len() / 2;
    assert_eq!(measure::find(&table, count, ABSENT.0, ABSENT.1), count);
    let same = table.clone();
    Row {
        workload: "find, a pair that is not there".into(),
        size: size(&table),
        library: Box::new(move || {
            black_box(measure::find(black_box(&table), count, ABSENT.0, ABSENT.1));
        }),
        reference: Box::new(move || {
            black_box(find(black_box(&same), count, ABSENT));
        }),
    }
}
