//! What the generator reaches.

use std::collections::BTreeMap;

use differential::call::{Call, Reply};
use differential::inputs::case;
use differential::lists;
use differential::parties::copy_rule;

#[test]
fn every_end_and_cause() {
    let judge = copy_rule();
    let mut seen: BTreeMap<u64, usize> = BTreeMap::new();
    let mut ends = [0; 4];
    for number in 0..20_000 {
        let answer = (judge.run)(&case(21, number)).answer;
        *seen.entry(answer[1]).or_default() += 1;
        ends[answer[0] as usize] += 1;
    }
    for cause in (1..=14).chain(21..=26) {
        let count = seen.get(&cause).copied().unwrap_or(0);
        assert!(count >= 10, "cause {cause} came up {count} times");
    }
    assert!(ends.iter().all(|&count| count >= 500), "finished, spent, stopped, refused: {ends:?}");
}

type Places<'a> = &'a [[i32; 2]];

/// How the needed part of a list stands to the right one.
fn faults(lent: Places, right: Places) -> Vec<(&'static str, bool)> {
    let used = |places: Places| lists::used(places.as_flattened());
    let (listed, unused) = lent.split_at(used(lent));
    let right = &right[..used(right)];
    let number = |group| right.iter().find(|place| place[0] == group).map(|place| place[1]);
    let off_by_one =
        |place: &[i32; 2]| number(place[0]).is_some_and(|it| it.abs_diff(place[1]) == 1);
    let groups = |places: Places| places.iter().map(|place| place[0]).collect::<Vec<_>>();
    let sum = |places: Places| places.iter().map(|place| i64::from(place[1])).sum::<i64>();
    let same_sum = groups(listed) == groups(right) && sum(listed) == sum(right);
    vec![
        ("a group out of order", listed.windows(2).any(|two| two[0][0] > two[1][0])),
        ("a group twice", listed.windows(2).any(|two| two[0][0] == two[1][0])),
        ("a number off by one", listed.iter().any(off_by_one)),
        ("the right sum of wrong numbers", listed != right && same_sum),
        ("a group of 0 members", listed.iter().any(|place| place[1] == 0)),
        ("a group too many", listed.iter().any(|place| number(place[0]).is_none())),
        ("a group missing", right.iter().any(|place| !groups(lent).contains(&place[0]))),
        ("an unused place before a group", unused.iter().any(|place| number(place[0]).is_some())),
        ("a group below 1", lent.iter().any(|place| place[0] < 0)),
        ("a word in an unused place", unused.iter().any(|place| place[0] == 0 && place[1] != 0)),
    ]
}

/// Of the lengths, and of the table with its list.
fn shapes(call: &Call, right: Places) -> Vec<(&'static str, bool)> {
    let (needed, count) = (2 * right.len(), call.count);
    let past = call.groups.get(needed..).unwrap_or_default();
    let used = lists::used(right.as_flattened());
    let in_use = call.table.as_chunks::<2>().0.iter().take(count);
    vec![
        ("a list a word too short", call.groups.len() + 1 == needed),
        ("words past the part needed", past.iter().any(|&word| word != 0)),
        ("a table of odd length", call.table.len() % 2 == 1),
        (
            "a group above the limit",
            right.iter().any(|place| i64::from(place[1]) > i64::from(call.g)),
        ),
        ("a full table", count > 0 && count == right.len()),
        ("one group", count > 1 && used == 1),
        ("as many groups as pairs", count > 1 && used == count),
        ("the highest group", in_use.clone().any(|pair| pair[0] == i32::MAX)),
        ("the highest member", in_use.clone().any(|pair| pair[1] == i32::MAX)),
    ]
}

/// What has become of a list that was right.
fn moves(before: &[i32], reply: &Reply) -> Vec<(&'static str, bool)> {
    let groups = |list: &[i32]| -> Vec<i32> {
        list.chunks_exact(2).map(|place| place[0]).take_while(|&group| group != 0).collect()
    };
    let (old, new) = (groups(before), groups(&reply.groups[..before.len()]));
    let (first, last) = (old.first(), old.last());
    let has = |it: Option<&i32>| it.is_some_and(|group| new.contains(group));
    vec![
        ("a group comes first", has(first) && new.first() < first),
        ("a group comes last", has(last) && new.last() > last),
        (
            "a group comes between",
            has(first)
                && new.first() == first
                && has(last)
                && new.last() == last
                && new.len() > old.len(),
        ),
        ("the first group goes", first.is_some() && !has(first)),
        ("the last group goes", last.is_some() && !has(last)),
        ("the last place is taken", old.len() < new.len() && 2 * new.len() == before.len()),
        ("a number alone moves", old == new && reply.groups[..before.len()] != *before),
        ("the highest group comes", !old.contains(&i32::MAX) && new.contains(&i32::MAX)),
    ]
}

#[test]
fn every_kind_of_list() {
    let judge = copy_rule();
    let mut seen: BTreeMap<&str, usize> = BTreeMap::new();
    for number in 0..20_000 {
        let call = case(21, number);
        let right = lists::right(&call.table, call.count);
        let (places, _) = right.as_chunks();
        let mut kinds = shapes(&call, places);
        if let Some(lent) = call.groups.get(..right.len()) {
            kinds.extend(faults(lent.as_chunks().0, places));
        }
        let reply = (judge.run)(&call);
        if !reply.refused() {
            kinds.extend(moves(&right, &reply));
        }
        for (kind, met) in kinds {
            *seen.entry(kind).or_default() += usize::from(met);
        }
    }
    assert_eq!(seen.len(), 27);
    for (kind, count) in seen {
        println!("{kind}: {count} of 20000");
        assert!(count >= 10, "{kind} came up {count} times");
    }
}

#[test]
fn a_case_does_not_depend_on_others() {
    let first = case(5, 77);
    case(5, 76);
    assert_eq!(case(5, 77), first);
    assert_ne!(case(5, 78), first);
    assert_ne!(case(6, 77), first);
}
