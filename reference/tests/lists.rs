//! Members of a group without a walk: the list of groups, when it is right and what AD and RM make of it.

mod support;

use reference::fast;
use reference::table::{is_right, list_is_right};
use reference::{End, Engine, Refusal, Stop};
use support::{assemble, list, Call, Reply};

/// The rules for a list, one by one.
fn keeps_the_rules(places: &[[i32; 2]], pairs: &[[i32; 2]]) -> bool {
    let used = places.iter().take_while(|place| **place != [0, 0]).count();
    let (listed, unused) = places.split_at(used);
    let rise = listed.windows(2).all(|two| two[0][0] < two[1][0]);
    let none_is_empty = listed.iter().all(|place| place[1] != 0);
    let unused_come_last = unused.iter().all(|place| *place == [0, 0]);
    let full_count = |group: i32| pairs.iter().filter(|pair| pair[0] == group).count();
    let counted = listed.iter().all(|place| i64::from(place[1]) == full_count(place[0]) as i64);
    let all_listed = pairs.iter().all(|pair| listed.iter().any(|place| place[0] == pair[0]));
    rise && none_is_empty && unused_come_last && counted && all_listed
}

/// Every row of so many words, each of them from these.
fn rows(words: usize, from: &[i32]) -> Vec<Vec<i32>> {
    let longer = |row: Vec<i32>| from.iter().map(move |&word| [&row[..], &[word]].concat());
    (0..words).fold(vec![Vec::new()], |rows, _| rows.into_iter().flat_map(longer).collect())
}

/// Tables of so many places, with any groups from 1 to 3 in use.
fn every_list_of(places: usize, words: &[i32]) -> usize {
    let mut right = 0;
    for count in 0..=places {
        for groups in rows(count, &[1, 2, 3]) {
            let pair = |(at, &group): (usize, &i32)| [group, at as i32 + 1];
            let pairs: Vec<[i32; 2]> = groups.iter().enumerate().map(pair).collect();
            let mut table = pairs.concat();
            table.resize(2 * places, 1);
            for row in rows(2 * places, words) {
                let expected = keeps_the_rules(row.as_chunks().0, &pairs);
                assert_eq!(list_is_right(&row, &table, count), expected, "{table:?} {row:?}");
                assert_eq!(fast::is_right(&table, count, 9, &row), expected, "{table:?} {row:?}");
                right += usize::from(expected);
            }
        }
    }
    right
}

#[test]
fn one_list_of_each_table_is_right() {
    assert_eq!(every_list_of(1, &[i32::MIN, -1, 0, 1, 2, 3, i32::MAX]), 1 + 3);
    assert_eq!(every_list_of(2, &[-1, 0, 1, 2, 3]), 1 + 3 + 9);
    assert_eq!(every_list_of(3, &[0, 1, 2, 3]), 1 + 3 + 9 + 27);
}

/// Group 1 has two members, group 3 one; a fourth place is free.
fn small() -> Call {
    let table = vec![3, 1, 1, 1, 1, 2, 0, 9];
    Call { table, count: 3, ..Call::new(assemble("BK 1 1, VR 1, KN 1 5")) }
}

fn number(call: &Call) -> u64 {
    let reply = call.on(Engine::Display);
    let as_lent = (call.table.clone(), call.lent_groups());
    if let End::Refused(_) = reply.answer.end {
        assert_eq!((reply.table, reply.groups), as_lent);
    }
    reply.answer.number()
}

#[test]
fn the_length_at_its_bound() {
    let right = list(&small().table, 3);
    let with = |words: &[i32]| number(&Call { groups: Some(words.to_vec()), ..small() });
    assert_eq!(with(&right), 0);
    assert_eq!(with(&right[..7]), 13);
    assert_eq!(with(&[]), 13);
    let empty =
        |groups: &[i32]| Call { table: vec![], count: 0, groups: Some(groups.to_vec()), ..small() };
    assert_eq!((number(&empty(&[])), number(&empty(&[5]))), (0, 0));
}

#[test]
fn what_lies_past_the_part_needed_stays() {
    let past = [0, 0, 7, 7, -1, 4, 0];
    for words in 0..=past.len() {
        let groups = [&list(&small().table, 3)[..], &past[..words]].concat();
        let reply = Call { groups: Some(groups.clone()), ..small() }.run();
        assert_eq!((reply.answer.number(), reply.groups), (0, groups));
    }
}

#[test]
fn each_way_to_be_wrong() {
    let right = [1, 2, 3, 1, 0, 0, 0, 0];
    assert_eq!(number(&Call { groups: Some(right.to_vec()), ..small() }), 0);
    let wrong = [
        ("groups fall", [3, 1, 1, 2, 0, 0, 0, 0]),
        ("a group twice", [1, 1, 1, 1, 3, 1, 0, 0]),
        ("one too many", [1, 3, 3, 1, 0, 0, 0, 0]),
        ("one too few", [1, 1, 3, 1, 0, 0, 0, 0]),
        ("the right sum", [1, 1, 3, 2, 0, 0, 0, 0]),
        ("a group is missing", [1, 2, 0, 0, 0, 0, 0, 0]),
        ("a group too many", [1, 2, 3, 1, 4, 1, 0, 0]),
        ("another group", [1, 2, 2, 1, 0, 0, 0, 0]),
        ("a group of 0 members", [1, 2, 2, 0, 3, 1, 0, 0]),
        ("a group of 0 members last", [1, 2, 3, 1, 4, 0, 0, 0]),
        ("an unused place between", [1, 2, 0, 0, 3, 1, 0, 0]),
        ("an unused place first", [0, 0, 1, 2, 3, 1, 0, 0]),
        ("a number in an unused place", [1, 2, 3, 1, 0, 5, 0, 0]),
        ("a word in the last place", [1, 2, 3, 1, 0, 0, 0, -1]),
        ("a group below 1", [-1, 1, 1, 2, 3, 1, 0, 0]),
        ("numbers that add up below 0", [1, i32::MAX, 3, i32::MIN + 4, 0, 0, 0, 0]),
    ];
    for (what, groups) in wrong {
        assert_eq!(number(&Call { groups: Some(groups.to_vec()), ..small() }), 14, "{what}");
    }
}

/// Each call has the fault named and all those that come after it.
#[test]
fn causes_in_their_order() {
    let short = Some(vec![9; 6]);
    let all = Call { d: 0, count: 4, groups: short, script: vec![], ..small() };
    assert_eq!(number(&all), 12);
    let list_short = Call { d: 16, ..all };
    assert_eq!(number(&list_short), 13);
    let odd = Call { table: vec![1, 1, 0], count: 1, groups: Some(vec![1]), ..small() };
    assert_eq!(number(&odd), 13);
    assert_eq!(number(&Call { groups: Some(vec![1, 1]), ..odd }), 14);
    let table = Call { groups: Some(vec![9; 8]), ..list_short };
    assert_eq!(number(&table), 14);
    let list_wrong = Call { count: 3, ..table };
    assert_eq!(number(&list_wrong), 14);
    assert_eq!(number(&Call { groups: None, ..list_wrong }), 1);
}

/// Statements on pairs, each as a letter for AD or RM with group and member.
fn done(statements: &[(&str, i32, i32)], g: u32, table: &[i32], count: usize) -> Reply {
    let text: String = statements
        .iter()
        .map(|(mark, group, member)| format!("KN 1 {group}, KN 2 {member}, {mark} 1 2, "))
        .collect();
    let text = format!("BK 2 {}, VR 1, VR 2, {text}", 3 * statements.len());
    Call { g, table: table.to_vec(), count, ..Call::new(assemble(&text)) }.run()
}

const FOUR: [i32; 10] = [4, 1, 2, 1, 4, 2, 9, 9, 0, 0];

#[test]
fn a_group_comes_at_its_place() {
    let added = |group| done(&[("AD", group, 5)], 9, &FOUR, 4).groups;
    assert_eq!(added(1), [1, 1, 2, 1, 4, 2, 9, 1, 0, 0]);
    assert_eq!(added(3), [2, 1, 3, 1, 4, 2, 9, 1, 0, 0]);
    assert_eq!(added(4), [2, 1, 4, 3, 9, 1, 0, 0, 0, 0]);
    assert_eq!(added(i32::MAX), [2, 1, 4, 2, 9, 1, i32::MAX, 1, 0, 0]);
}

#[test]
fn a_group_leaves_with_its_last_member() {
    let removed = |group, member| done(&[("RM", group, member)], 9, &FOUR, 4).groups;
    assert_eq!(removed(2, 1), [4, 2, 9, 1, 0, 0, 0, 0, 0, 0]);
    assert_eq!(removed(4, 1), [2, 1, 4, 1, 9, 1, 0, 0, 0, 0]);
    assert_eq!(removed(9, 9), [2, 1, 4, 2, 0, 0, 0, 0, 0, 0]);
    assert_eq!(removed(9, 8), [2, 1, 4, 2, 9, 1, 0, 0, 0, 0]);
}

#[test]
fn a_present_pair_is_not_counted_again() {
    let twice = done(&[("AD", 4, 1), ("AD", 4, 1)], 9, &FOUR, 4);
    assert_eq!((twice.table, twice.groups), (FOUR.to_vec(), list(&FOUR, 4)));
}

#[test]
fn the_size_test_is_the_full_count() {
    for g in 1..=4 {
        let reply = done(&[("RM", 4, 2), ("AD", 4, 7), ("AD", 4, 8)], g, &FOUR, 4);
        let expected = match g {
            1 => End::Refused(Refusal::Table),
            2 => End::Stopped(Stop::GroupFull),
            _ => End::Finished,
        };
        assert_eq!(reply.answer.end, expected, "G {g}");
    }
}

#[test]
fn every_place_of_the_list_in_use() {
    let own = [7, 1, 1, 1, i32::MAX, 1];
    assert_eq!(list(&own, 3), [1, 1, 7, 1, i32::MAX, 1]);
    let full = done(&[("AD", 5, 1)], 9, &own, 3);
    assert_eq!((full.answer.end, full.groups), (End::Stopped(Stop::TableFull), list(&own, 3)));
    let renewed = done(&[("RM", 7, 1), ("AD", 5, 1)], 9, &own, 3).groups;
    assert_eq!(renewed, [1, 1, 5, 1, i32::MAX, 1]);
    let first = done(&[("RM", i32::MAX, 1), ("AD", 1, i32::MAX)], 9, &own, 3).groups;
    assert_eq!(first, [1, 2, 7, 1, 0, 0]);
}

#[test]
fn one_group_comes_and_goes() {
    let one = done(&[("AD", 8, 1), ("AD", 8, 2), ("RM", 8, 1)], 9, &[0; 4], 0);
    assert_eq!(one.groups, [8, 1, 0, 0]);
    let none = done(&[("AD", 8, 1), ("AD", 8, 2), ("RM", 8, 1), ("RM", 8, 2)], 9, &[0; 4], 0);
    assert_eq!((none.answer.pairs, none.groups), (0, vec![0; 4]));
}

/// By a pair's number.
type GroupOf = fn(i32) -> i32;

#[test]
fn lists_of_many_pairs() {
    let pairs = 60_000;
    let table = |group: GroupOf| -> Vec<i32> {
        (0..pairs).flat_map(|number| [group(number), number + 1]).collect()
    };
    let tables: [(&str, GroupOf); 4] = [
        ("one group", |_| i32::MAX),
        ("each its own", |number| i32::MAX - number),
        ("groups of three", |number| 1 + number / 3),
        ("far apart", |number| 1 + number % 7 * 300_000_000),
    ];
    for (what, group) in tables {
        let (table, count) = (table(group), pairs as usize);
        let right = list(&table, count);
        let call = |groups| Call {
            g: 65_535,
            count,
            table: table.clone(),
            groups: Some(groups),
            ..small()
        };
        let used = right.as_chunks::<2>().0.iter().take_while(|place| place[0] != 0).count();
        assert!(is_right(&table, count, 65_535), "{what}");
        assert_eq!(number(&call(right.clone())), 0, "{what}");
        for word in [1, 2 * used - 1, right.len() - 1] {
            let mut wrong = right.clone();
            wrong[word] += 1;
            assert_eq!(number(&call(wrong)), 14, "{what}, word {word}");
        }
    }
}
