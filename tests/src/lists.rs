//! Lists of groups: the right one of a table, and lists that are wrong in one thing.

use std::collections::BTreeMap;

use crate::random::Random;

type Place = [i32; 2];

/// The right list of a table, just as long as asked.
pub fn right(table: &[i32], count: usize) -> Vec<i32> {
    let mut members = BTreeMap::new();
    for pair in table.chunks_exact(2).take(count) {
        *members.entry(pair[0]).or_insert(0) += 1;
    }
    let mut places: Vec<Place> = members.into_iter().map(Place::from).collect();
    places.resize(table.len() / 2, [0, 0]);
    places.concat()
}

/// Places in use, up to the first whose group is 0.
pub fn used(groups: &[i32]) -> usize {
    groups.chunks_exact(2).take_while(|place| place[0] != 0).count()
}

/// The list that is lent with a table: mostly the right one, often with anything past the part needed, and in so many
/// of a hundred too short.
pub fn lent(random: &mut Random, table: &[i32], count: usize, short: usize) -> Vec<i32> {
    let mut groups = right(table, count);
    if random.chance(short) {
        shorten(random, &mut groups);
        return groups;
    }
    if random.chance(8) {
        damage(random, &mut groups);
    }
    if random.chance(40) {
        groups.extend((0..random.between(1, 5)).map(|_| word(random)));
    }
    groups
}

/// By one word more often than by several.
fn shorten(random: &mut Random, groups: &mut Vec<i32>) {
    let missing = if random.chance(70) { 1 } else { random.between(1, 6) };
    groups.truncate(groups.len().saturating_sub(missing));
}

fn word(random: &mut Random) -> i32 {
    match random.below(8) {
        0 => random.pick(&[i32::MIN, i32::MAX, -1]),
        _ => random.between(0, 6) as i32,
    }
}

/// Wrong in one thing, unless the list has no room for it.
pub fn damage(random: &mut Random, groups: &mut [i32]) {
    let used = used(groups);
    let (places, _) = groups.as_chunks_mut();
    let free = places.len() - used;
    match random.below(10) {
        0 if used > 1 => exchange(random, &mut places[..used]),
        1 if used > 0 => places[random.below(used)][1] += 1,
        2 if used > 0 => places[random.below(used)][1] -= 1,
        3 if used > 1 => carry(random, &mut places[..used]),
        4 if used > 0 => places[random.below(used)..].rotate_left(1),
        5 if used > 0 => leave_out(random, &mut places[..used]),
        6 if free > 0 => put_in(random, &mut places[..=used], 0),
        7 if free > 0 => put_in(random, &mut places[..=used], 1),
        8 if used > 0 && free > 0 => part(random, &mut places[..=used]),
        _ if free > 0 => {
            let word = random.pick(&[-1, 1, 5, i32::MIN, i32::MAX]);
            places[used + random.below(free)][random.below(2)] = word;
        }
        _ => {}
    }
}

/// Two groups, each with its number, in the wrong order.
fn exchange(random: &mut Random, listed: &mut [Place]) {
    let at = random.below(listed.len() - 1);
    listed.swap(at, at + 1);
}

/// One member of a group is counted with another one, so that the sum is right.
fn carry(random: &mut Random, listed: &mut [Place]) {
    let from = random.below(listed.len());
    let to = (from + random.between(1, listed.len() - 1)) % listed.len();
    listed[from][1] -= 1;
    listed[to][1] += 1;
}

/// A group is missing, and its place is free.
fn leave_out(random: &mut Random, listed: &mut [Place]) {
    let (at, last) = (random.below(listed.len()), listed.len() - 1);
    listed.copy_within(at + 1.., at);
    listed[last] = [0, 0];
}

/// A group that no pair has, or one of the table's a second time, before the last place or in it.
fn put_in(random: &mut Random, places: &mut [Place], members: i32) {
    let (at, last) = (random.below(places.len()), places.len() - 1);
    let before = if at == 0 { 0 } else { places[at - 1][0] };
    places.copy_within(at..last, at + 1);
    places[at] = [before.saturating_add(1), members];
}

/// An unused place before a group.
fn part(random: &mut Random, places: &mut [Place]) {
    let last = places.len() - 1;
    let at = random.below(last);
    places.copy_within(at..last, at + 1);
    places[at] = [0, 0];
}
