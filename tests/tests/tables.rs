//! The proved test of table and list, and find, against the reference's.

use binding::measure::{guarded_find, guarded_right};
use differential::random::Random;
use differential::{lists, table_work};
use reference::fast;
use reference::table::{find, is_right, list_is_right, list_words};

/// Group limits and counts around those of a generated table, which is mostly right.
fn near(random: &mut Random, number: usize) -> usize {
    (number + 1).saturating_sub(random.below(3))
}

#[test]
fn the_test_agrees() {
    let mut wrong = 0;
    for number in 0..20_000 {
        let call = table_work::case(51, number);
        let random = &mut Random::new(52, number);
        let (count, g) = (near(random, call.count), near(random, call.g as usize) as u32);
        let mut groups = call.groups.clone();
        if count != call.count {
            groups = lists::lent(random, &call.table, count, 1);
        }
        let right = both_right(&call.table, count, g, &groups);
        let proved = proved(&call.table, count, g, &groups);
        assert_eq!(proved, Ok(right), "table seed 51 and 52, case {number}: {count} {g}, {call:?}");
        wrong += usize::from(!right);
    }
    assert!((2_000..18_000).contains(&wrong), "{wrong} tables or lists are wrong");
}

/// By the rules read one after the other.
fn both_right(table: &[i32], count: usize, g: u32, groups: &[i32]) -> bool {
    groups.len() >= list_words(table.len())
        && is_right(table, count, g)
        && list_is_right(groups, table, count)
}

fn proved(table: &[i32], count: usize, g: u32, groups: &[i32]) -> Result<bool, String> {
    guarded_right(table, count, g, groups).map_err(|strayed| strayed.to_string())
}

/// Where the table is right, each way to be wrong that a list has.
#[test]
fn the_test_of_damaged_lists_agrees() {
    let (mut wrong, mut right) = (0, 0);
    for number in 0..20_000 {
        let call = table_work::case(57, number);
        let random = &mut Random::new(58, number);
        let mut groups = lists::right(&call.table, call.count);
        lists::damage(random, &mut groups);
        if is_right(&call.table, call.count, call.g) {
            let expected = list_is_right(&groups, &call.table, call.count);
            let proved = proved(&call.table, call.count, call.g, &groups);
            assert_eq!(proved, Ok(expected), "table seed 57 and 58, case {number}: {groups:?}");
            *(if expected { &mut right } else { &mut wrong }) += 1;
        }
    }
    assert!(wrong > 10_000 && right > 200, "{wrong} lists are wrong, {right} are not");
}

/// So many different pairs with so many members a group, in a random order: numbers in sequence, or random ones.
fn large(random: &mut Random, count: usize, members: usize, in_sequence: bool) -> Vec<[i32; 2]> {
    // An odd factor keeps numbers different.
    let factor = if in_sequence { 1 } else { 0x1e37_79b9 };
    let spread = |number: usize| (number * factor % (1 << 30)) as i32 + 1;
    let mut pairs: Vec<[i32; 2]> =
        (0..count).map(|at| [spread(at / members), spread(at % members)]).collect();
    for last in (1..count).rev() {
        pairs.swap(last, random.below(last + 1));
    }
    pairs
}

/// With the list of the pairs, whether or not they are right.
fn agrees(pairs: &[[i32; 2]], limit: u32, right: bool, what: &str) {
    let words = pairs.concat();
    let groups = lists::right(&words, pairs.len());
    with_list_agrees(&words, limit, &groups, right, what);
}

fn with_list_agrees(words: &[i32], limit: u32, groups: &[i32], right: bool, what: &str) {
    let count = words.len() / 2;
    assert_eq!(fast::is_right(words, count, limit, groups), right, "reference, {what}");
    assert_eq!(proved(words, count, limit, groups), Ok(right), "{what}");
}

/// Whatever way the test takes for its size, a list that is wrong in one word is found, be it in the first place, the middle, the
/// last one in use or the last one of all.
#[test]
fn the_test_of_large_lists_agrees() {
    let random = &mut Random::new(59, 0);
    for (count, members) in [
        (63, 1),
        (64, 64),
        (1_400, 1),
        (1_401, 3),
        (20_000, 1),
        (20_001, 1),
        (41_000, 2),
        (70_000, 70_000),
    ] {
        for in_sequence in [true, false] {
            let what = format!("{count} pairs, {members} a group, in sequence: {in_sequence}");
            let words = large(random, count, members, in_sequence).concat();
            let right = lists::right(&words, count);
            let mut groups = [&right[..], &[-1, 7]].concat();
            with_list_agrees(&words, u32::MAX, &groups, true, &what);
            let used = lists::used(&right);
            for place in [0, used / 2, used - 1, count - 1] {
                for (word, by) in [(2 * place, 1), (2 * place + 1, 1), (2 * place + 1, -1)] {
                    groups[word] += by;
                    let what = format!("{what}, word {word} by {by}");
                    with_list_agrees(&words, u32::MAX, &groups, false, &what);
                    groups[word] -= by;
                }
            }
            with_list_agrees(&words, u32::MAX, &right[..right.len() - 1], false, &what);
        }
    }
}

/// Two numbers that are wrong by one each, far apart and side by side, with the right sum.
#[test]
fn the_sum_alone_is_not_enough() {
    let random = &mut Random::new(60, 0);
    for (count, members) in [(90, 3), (3_000, 3), (50_000, 2), (90_000, 30)] {
        let words = large(random, count, members, false).concat();
        let mut groups = lists::right(&words, count);
        let used = lists::used(&groups);
        for (one, other) in [(0, used - 1), (used - 1, 0), (used / 2, used / 2 - 1)] {
            groups[2 * one + 1] += 1;
            groups[2 * other + 1] -= 1;
            let what = format!("{count} pairs, {members} a group, places {one} and {other}");
            with_list_agrees(&words, u32::MAX, &groups, false, &what);
            groups[2 * one + 1] -= 1;
            groups[2 * other + 1] += 1;
        }
    }
}

/// Whatever way the test takes for its size and limit, one pair too many is found.
#[test]
fn the_test_of_large_tables_agrees() {
    let random = &mut Random::new(55, 0);
    for (count, members) in
        [(70, 7), (5_000, 1), (60_000, 2), (60_000, 14), (60_000, 15), (60_000, 600)]
    {
        for in_sequence in [true, false] {
            let what = format!("{count} pairs, {members} a group, in sequence: {in_sequence}");
            let mut pairs = large(random, count, members, in_sequence);
            let limit = members as u32;
            agrees(&pairs, limit, true, &what);
            agrees(&pairs, limit - 1, false, &format!("{what}, lower limit"));
            let (from, to) = (random.below(count), random.below(count - 1));
            let to = to + usize::from(to >= from);
            let kept = pairs[to];
            pairs[to] = pairs[from];
            agrees(&pairs, u32::MAX, false, &format!("{what}, {from} again at {to}"));
            pairs[to] = [pairs[from][0], i32::MAX];
            agrees(
                &pairs,
                limit,
                kept[0] == pairs[from][0],
                &format!("{what}, {to} in the group of {from}"),
            );
        }
    }
}

/// More pairs than one class holds, and so many suspected groups that most bits are set.
#[test]
fn the_test_of_largest_tables_agrees() {
    let random = &mut Random::new(56, 0);
    for (count, members, limit) in [(450_000, 450, 450), (450_000, 1, 2)] {
        let what = format!("{count} pairs, {members} a group, limit {limit}");
        let mut pairs = large(random, count, members, true);
        agrees(&pairs, limit, true, &what);
        for (from, to) in [(0, count - 1), (count - 2, count - 1)] {
            let kept = pairs[to];
            pairs[to] = pairs[from];
            agrees(&pairs, limit, false, &format!("{what}, {from} again at {to}"));
            pairs[to] = kept;
        }
        let group = pairs[0][0];
        for at in 1..=limit as usize {
            pairs[count - at] = [group, i32::MAX - at as i32];
        }
        agrees(&pairs, limit, false, &format!("{what}, group {group} too large"));
    }
}

#[test]
fn a_found_place_agrees() {
    let mut absent = 0;
    for number in 0..20_000 {
        let call = table_work::case(53, number);
        let random = &mut Random::new(54, number);
        let pair = [random.between(1, 12) as i32, random.between(1, 12) as i32];
        let pair = match call.table.get(2 * random.below(call.count.max(1))..) {
            Some(&[group, member, ..]) if random.chance(50) => [group, member],
            _ => pair,
        };
        let proved = guarded_find(&call.table, call.count, pair[0], pair[1]);
        let place = find(&call.table, call.count, (pair[0], pair[1]));
        let proved = proved.map_err(|strayed| strayed.to_string());
        assert_eq!(
            proved,
            Ok(place.unwrap_or(call.count)),
            "{pair:?}, table seed 53, case {number}"
        );
        absent += usize::from(place.is_none());
    }
    assert!((2_000..18_000).contains(&absent), "{absent} pairs are absent");
}
