//! Damaged scripts: a byte, a field, a record cut or doubled, a count that lies.

use crate::encode::Script;
use crate::random::Random;

const MARKS: [[u8; 2]; 13] = [
    *b"BK", *b"VR", *b"LB", *b"PR", *b"FM", *b"CL", *b"GO", *b"IF", *b"KN", *b"AR", *b"AD", *b"RM",
    *b"QY",
];

pub fn damage(random: &mut Random, script: &Script) -> Vec<u8> {
    let mut bytes = script.bytes.clone();
    for _ in 0..if random.chance(80) { 1 } else { 2 } {
        damage_once(random, script, &mut bytes);
    }
    bytes
}

fn damage_once(random: &mut Random, script: &Script, bytes: &mut Vec<u8>) {
    match random.below(12) {
        0 => byte(random, bytes),
        1 | 2 => field(random, bytes),
        3 => mark(random, script, bytes),
        4 => count(random, script, bytes),
        5 => cut_record(random, script, bytes),
        6 => double_record(random, script, bytes),
        7..=9 => names(random, script, bytes),
        10 => bytes.truncate(random.below(bytes.len() + 1)),
        _ => trail(random, bytes),
    }
}

fn byte(random: &mut Random, bytes: &mut [u8]) {
    if !bytes.is_empty() {
        let at = random.below(bytes.len());
        bytes[at] = random.number() as u8;
    }
}

fn field(random: &mut Random, bytes: &mut [u8]) {
    if bytes.len() >= 2 {
        let at = 2 * random.below(bytes.len() / 2);
        change_word(random, bytes, at);
    }
}

fn change_word(random: &mut Random, bytes: &mut [u8], at: usize) {
    let Some(word) = bytes.get_mut(at..at + 2) else { return };
    let now = u16::from_le_bytes([word[0], word[1]]);
    let small = random.below(20) as u16;
    let choices = [now.wrapping_add(1), now.wrapping_sub(1), 0, 32, 33, u16::MAX, small, small];
    word.copy_from_slice(&random.pick(&choices).to_le_bytes());
}

/// A record's place in bytes that may have been damaged already.
fn record(random: &mut Random, script: &Script, length: usize) -> (usize, usize) {
    let number = random.below(script.records.len());
    let start = script.records[number];
    let end = script.records.get(number + 1).copied().unwrap_or(script.bytes.len());
    (start.min(length), end.min(length))
}

fn mark(random: &mut Random, script: &Script, bytes: &mut [u8]) {
    let (start, end) = record(random, script, bytes.len());
    if end - start >= 2 {
        bytes[start..start + 2].copy_from_slice(&random.pick(&MARKS));
    }
}

/// One of the first two fields: counts, indices, kinds and operations are there.
fn count(random: &mut Random, script: &Script, bytes: &mut [u8]) {
    let (start, _) = record(random, script, bytes.len());
    let at = start + random.between(1, 2) * 2;
    change_word(random, bytes, at);
}

/// Several names of one statement, so that the order in which they are judged shows.
fn names(random: &mut Random, script: &Script, bytes: &mut [u8]) {
    let (start, end) = record(random, script, bytes.len());
    let mark = bytes.get(start..start + 2).unwrap_or_default();
    let second_is_a_name = match mark {
        b"AR" | b"CL" => false,
        b"IF" | b"AD" | b"RM" | b"QY" => true,
        _ => return,
    };
    for index in 1..(end - start) / 2 {
        if (index != 2 || second_is_a_name) && random.chance(60) {
            let name = random.below(20) as u16;
            bytes[start + 2 * index..][..2].copy_from_slice(&name.to_le_bytes());
        }
    }
}

fn cut_record(random: &mut Random, script: &Script, bytes: &mut Vec<u8>) {
    let (start, end) = record(random, script, bytes.len());
    bytes.drain(start..end);
}

fn double_record(random: &mut Random, script: &Script, bytes: &mut Vec<u8>) {
    let (start, end) = record(random, script, bytes.len());
    let copy = bytes[start..end].to_vec();
    bytes.splice(end..end, copy);
}

fn trail(random: &mut Random, bytes: &mut Vec<u8>) {
    for _ in 0..random.between(1, 4) {
        bytes.push(random.number() as u8);
    }
}
