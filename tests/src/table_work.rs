//! Calls with tables of some hundred pairs and scripts of nothing but table work.

use crate::call::{Call, Engine};
use crate::lent;
use crate::lists;
use crate::random::Random;

const STATEMENT_GROUPS: usize = 365;

/// How many groups and how many members the numbers of a case are taken from.
#[derive(Clone, Copy)]
struct Numbers {
    groups: usize,
    members: usize,
}

/// One group, each pair its own group, and what lies between.
const NUMBERS: [Numbers; 6] = [
    Numbers { groups: 3, members: 3 },
    Numbers { groups: 12, members: 12 },
    Numbers { groups: 40, members: 40 },
    Numbers { groups: 1, members: 500 },
    Numbers { groups: 500, members: 1 },
    Numbers { groups: 250, members: 3 },
];

/// Case `number` of a seed.
pub fn case(seed: u64, number: u64) -> Call {
    let random = &mut Random::new(seed, number);
    let numbers = random.pick(&NUMBERS);
    let g = random.pick(&[1, 4, 30, 65_535]);
    let (table, count) = table(random, g as usize, numbers);
    Call {
        engine: Engine::Display,
        script: script(random, numbers),
        d: 1,
        n: random.between(0, 3 * STATEMENT_GROUPS + 1) as u32,
        g,
        tally: 0,
        count,
        name: 1,
        groups: lists::lent(random, &table, count, 1),
        table,
        sheet: lent::sheet(random, 1),
        working: Vec::new(),
    }
}

/// Some numbers are far apart, so that no part of a word can be left out of a comparison.
fn number(random: &mut Random, most: usize) -> i32 {
    let small = random.between(1, most) as i32;
    match random.below(10) {
        0 => small << 16,
        1 => i32::MAX - (small - 1),
        _ => small,
    }
}

fn pair(random: &mut Random, numbers: Numbers) -> [i32; 2] {
    [number(random, numbers.groups), number(random, numbers.members)]
}

fn table(random: &mut Random, g: usize, numbers: Numbers) -> (Vec<i32>, usize) {
    let places = random.pick(&[1, 30, 100, 400]);
    let mut pairs: Vec<[i32; 2]> = Vec::new();
    let tries = if random.chance(20) { 2 * places } else { random.between(0, places) };
    for _ in 0..tries {
        let pair = pair(random, numbers);
        let members = pairs.iter().filter(|other| other[0] == pair[0]).count();
        if pairs.len() < places && !pairs.contains(&pair) && members < g {
            pairs.push(pair);
        }
    }
    let count = pairs.len();
    if count > 0 && random.chance(10) {
        pairs[random.below(count)] = pairs[random.below(count)];
    }
    pairs.resize(places, [-7, 0]);
    (pairs.concat(), count)
}

fn script(random: &mut Random, numbers: Numbers) -> Vec<u8> {
    let mut bytes = b"BK".to_vec();
    bytes.extend([3, 0]);
    bytes.extend((3 * STATEMENT_GROUPS as u16).to_le_bytes());
    bytes.extend(b"VR\x01\x00VR\x02\x00VR\x03\x00");
    for _ in 0..STATEMENT_GROUPS {
        let [group, member] = pair(random, numbers);
        bytes.extend(b"KN\x01\x00");
        bytes.extend(group.to_le_bytes());
        bytes.extend(b"KN\x02\x00");
        bytes.extend(member.to_le_bytes());
        let statement: &[u8] = match random.below(20) {
            0 => b"QY\x03\x00\x01\x00\x02\x00",
            1..=8 => b"RM\x01\x00\x02\x00",
            _ => b"AD\x01\x00\x02\x00",
        };
        bytes.extend(statement);
    }
    bytes
}
