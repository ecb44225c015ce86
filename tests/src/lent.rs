//! Lent slices: filled with a pattern and mostly longer than asked, so that a word written
//! where none may be is seen.

use crate::call::{Call, Engine};
use crate::random::Random;

/// Sheet words of one activation: offset, next statement, encloser, and at most 32 names.
pub const SHEET_WORDS: usize = 35;

/// Beyond it D is refused anyway.
const MOST_ACTIVATIONS: usize = 257;

pub fn pattern(index: usize) -> u32 {
    (index as u32).wrapping_mul(0x9e37_79b1) ^ 0xa5a5_0000
}

pub fn sheet(random: &mut Random, d: u32) -> Vec<i32> {
    let length = about(random, activations(d) * SHEET_WORDS);
    (0..length).map(|index| pattern(index) as i32).collect()
}

pub fn working(random: &mut Random, engine: Engine, d: u32, script: usize) -> Vec<u32> {
    let length = match engine {
        Engine::Copying => about(random, activations(d) * (script / 2)),
        Engine::Chain => 3 * about(random, activations(d)),
        Engine::Display | Engine::Search => 0,
    };
    (0..length).map(pattern).collect()
}

/// The call to an engine. Where it was made for another one, the engine is lent just what it asks for.
pub fn to(engine: Engine, call: &Call) -> Call {
    let working = if engine == call.engine { call.working.clone() } else { own(engine, call) };
    Call { engine, working, ..call.clone() }
}

fn own(engine: Engine, call: &Call) -> Vec<u32> {
    let words = match engine {
        Engine::Copying => activations(call.d) * (call.script.len() / 2),
        Engine::Chain => 3 * activations(call.d),
        Engine::Display | Engine::Search => 0,
    };
    (0..words).map(pattern).collect()
}

fn activations(d: u32) -> usize {
    (d as usize).min(MOST_ACTIVATIONS)
}

fn about(random: &mut Random, asked: usize) -> usize {
    match random.below(100) {
        0 => asked.saturating_sub(1),
        1..=30 => asked,
        _ => asked + random.between(1, 40),
    }
}
