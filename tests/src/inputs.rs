//! A whole call: a script with limits, a table and a looked-up name.

use crate::call::{Call, ENGINES};
use crate::damage::damage;
use crate::edges;
use crate::encode::encode;
use crate::generate::program;
use crate::lent;
use crate::lists;
use crate::parties::fast;
use crate::passing;
use crate::random::Random;
use crate::shapes::at_a_bound;

/// Case `number` of a seed.
pub fn case(seed: u64, number: u64) -> Call {
    let random = &mut Random::new(seed, number);
    let script = script(random);
    call(random, script)
}

pub fn script(random: &mut Random) -> Vec<u8> {
    match random.below(100) {
        0..=74 => encode(&program(random)).bytes,
        75..=77 => passing::script(random),
        _ => unfit_script(random),
    }
}

/// Most of these are refused.
pub fn unfit_script(random: &mut Random) -> Vec<u8> {
    match random.below(10) {
        0..=4 => {
            let script = encode(&program(random));
            damage(random, &script)
        }
        5..=7 => edges::script(random),
        _ => at_a_bound(random),
    }
}

pub fn call(random: &mut Random, script: Vec<u8>) -> Call {
    let engine = random.pick(&ENGINES);
    let d = activations(random);
    let g = group_limit(random);
    let (table, groups, count) = table(random, g);
    let length = script.len();
    let mut call = Call {
        engine,
        script,
        d,
        n: allowance(random),
        // Now and then a group that was just full is too large.
        g: if g > 1 && random.chance(3) { g - 1 } else { g },
        tally: tally(random),
        count,
        name: name(random),
        table,
        groups,
        sheet: lent::sheet(random, d),
        working: lent::working(random, engine, d, length),
    };
    if random.chance(50) {
        end_anywhere(random, &mut call);
    }
    call
}

/// An allowance up to the steps of the whole run, often one of the last, when most has happened.
fn end_anywhere(random: &mut Random, call: &mut Call) {
    let reply = (fast().run)(call);
    if !reply.refused() {
        let steps = reply.answer[2] as usize;
        let least = if random.chance(60) { steps.saturating_sub(12) } else { 0 };
        call.n = random.between(least, steps) as u32;
    }
}

fn activations(random: &mut Random) -> u32 {
    match random.below(100) {
        0 => random.pick(&[0, 257, u32::MAX]),
        1..=4 => 256,
        5..=15 => random.between(1, 4) as u32,
        _ => random.between(5, 40) as u32,
    }
}

fn allowance(random: &mut Random) -> u32 {
    match random.below(100) {
        0 => random.pick(&[1_000_001, u32::MAX]),
        1..=5 => random.between(0, 8) as u32,
        6..=25 => random.between(9, 60) as u32,
        _ => random.between(61, 400) as u32,
    }
}

fn group_limit(random: &mut Random) -> u32 {
    match random.below(100) {
        0 => random.pick(&[0, 65_536, u32::MAX]),
        1..=5 => random.pick(&[65_535, 60]),
        _ => random.between(1, 3) as u32,
    }
}

fn tally(random: &mut Random) -> u64 {
    match random.below(100) {
        0 => random.pick(&[1_000_000_000_001, u64::MAX]),
        1..=4 => 1_000_000_000_000,
        _ => random.number() % 1_000_000,
    }
}

fn name(random: &mut Random) -> u16 {
    if random.chance(10) {
        return random.pick(&[0, 257, 258, 513, 65_534, 65_535, 40, 43]);
    }
    random.between(1, 15) as u16
}

/// Mostly right, with its list; past the pairs in use anything may stand.
fn table(random: &mut Random, g: u32) -> (Vec<i32>, Vec<i32>, usize) {
    let places = random.between(0, 8);
    let pairs = pairs(random, places, g as usize);
    let mut count = pairs.len();
    let mut words = pairs.concat();
    while words.len() < 2 * places {
        words.push(random.between(0, 8) as i32 - 2);
    }
    let spoiled = random.chance(3);
    if spoiled {
        spoil(random, &mut words, &mut count);
    }
    let groups = lists::lent(random, &words, count, if spoiled { 25 } else { 1 });
    (words, groups, count)
}

/// Few groups, or one, or each pair its own; the last group and member may have the highest number.
fn pairs(random: &mut Random, places: usize, g: usize) -> Vec<[i32; 2]> {
    let (groups, members) = random.pick(&[(4, 5), (4, 5), (4, 5), (1, 8), (8, 1)]);
    let highest = random.chance(15);
    let number = |it: usize, last: usize| if highest && it == last { i32::MAX } else { it as i32 };
    let tries = if random.chance(20) { 8 * places } else { random.between(0, places) };
    let mut pairs: Vec<[i32; 2]> = Vec::new();
    for _ in 0..tries {
        let (group, member) = (random.between(1, groups), random.between(1, members));
        let pair = [number(group, groups), number(member, members)];
        let size = pairs.iter().filter(|other| other[0] == pair[0]).count();
        if pairs.len() < places && !pairs.contains(&pair) && size < g {
            pairs.push(pair);
        }
    }
    pairs
}

fn spoil(random: &mut Random, words: &mut Vec<i32>, count: &mut usize) {
    match random.below(4) {
        0 => words.push(1),
        1 => *count = random.pick(&[words.len() / 2 + 1, usize::MAX]),
        2 if *count > 0 => words[random.below(2 * *count)] = random.between(0, 2) as i32 - 1,
        _ if *count > 1 => words.copy_within(0..2, 2 * random.between(1, *count - 1)),
        _ => words.push(0),
    }
}
