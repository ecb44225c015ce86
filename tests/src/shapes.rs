//! Scripts at a bound of the encoding, one under it and one over it.

use crate::random::Random;

/// Marks and fields written out; a script made of them need not be fit.
#[derive(Default)]
struct Writer {
    bytes: Vec<u8>,
}

impl Writer {
    fn record(&mut self, mark: &[u8; 2], fields: &[usize]) -> &mut Self {
        self.bytes.extend(mark);
        for &field in fields {
            self.bytes.extend((field as u16).to_le_bytes());
        }
        self
    }
}

pub fn at_a_bound(random: &mut Random) -> Vec<u8> {
    match random.below(9) {
        0 => levels(random.between(15, 17)),
        1 => bodies(random.between(15, 17)),
        2 => names(random.between(31, 33)),
        3 => names_with_formals(random.between(0, 33), random.between(31, 33)),
        4 => arguments(random.between(31, 33), random.chance(50)),
        5 => length(random.between(8_188, 8_196)),
        6 => label(random.between(1, 3), random.between(0, 4)),
        7 => kinds(random.between(0, 3), random.between(0, 3)),
        _ => argument_kinds(random.between(0, 2), random.between(0, 2), random.between(0, 2)),
    }
}

fn levels(count: usize) -> Vec<u8> {
    let mut script = Writer::default();
    for level in 1..=count {
        script.record(b"BK", &[1, 1]).record(b"VR", &[level]);
    }
    script.record(b"KN", &[1, 5, 0]).bytes.clone()
}

/// Each body declares the next procedure and calls it.
fn bodies(count: usize) -> Vec<u8> {
    let mut script = Writer::default();
    for level in 1..count {
        script.record(b"BK", &[1, 1]).record(b"PR", &[level, 0]);
    }
    script.record(b"BK", &[0, 0]);
    for level in (1..count).rev() {
        script.record(b"CL", &[level, 0]);
    }
    script.bytes.clone()
}

fn names(count: usize) -> Vec<u8> {
    let mut script = Writer::default();
    script.record(b"BK", &[count, 1]);
    for name in 1..=count {
        script.record(b"VR", &[name]);
    }
    script.record(b"KN", &[count, 7, 0]).bytes.clone()
}

fn names_with_formals(formals: usize, all: usize) -> Vec<u8> {
    let mut script = Writer::default();
    let own = all.saturating_sub(formals);
    script.record(b"BK", &[2, 1]).record(b"VR", &[1]).record(b"PR", &[2, formals]);
    for name in 0..formals {
        script.record(b"FM", &[name, 0]);
    }
    script.record(b"BK", &[own, 0]);
    for name in formals..formals + own {
        script.record(b"VR", &[name]);
    }
    script.record(b"CL", &[2, formals]);
    for _ in 0..formals {
        script.bytes.extend([1, 0]);
    }
    script.bytes.clone()
}

fn arguments(count: usize, present: bool) -> Vec<u8> {
    let mut script = Writer::default();
    script.record(b"BK", &[1, 1]).record(b"VR", &[1]).record(b"CL", &[1, count]);
    for _ in 0..if present { count } else { 3 } {
        script.bytes.extend([1, 0]);
    }
    script.bytes.clone()
}

/// Fit where the length is even, but for lengths that no records make up: those trail bytes.
fn length(bytes: usize) -> Vec<u8> {
    let (constants, rest) = ((bytes - 10) / 8, (bytes - 10) % 8);
    let (more_variables, additions) = (usize::from(rest == 4), usize::from(rest == 6));
    let mut script = Writer::default();
    script.record(b"BK", &[1 + more_variables, constants + additions]).record(b"VR", &[1]);
    for _ in 0..more_variables {
        script.record(b"VR", &[2]);
    }
    for value in 0..constants {
        script.record(b"KN", &[1, value, 0]);
    }
    for _ in 0..additions {
        script.record(b"AD", &[1, 1]);
    }
    script.bytes.resize(bytes, 0);
    script.bytes
}

fn label(s: usize, index: usize) -> Vec<u8> {
    let mut script = Writer::default();
    script.record(b"BK", &[2, s]).record(b"VR", &[1]).record(b"LB", &[2, index]);
    for _ in 0..s {
        script.record(b"IF", &[1, 2]);
    }
    script.bytes.clone()
}

fn kinds(kind: usize, operation: usize) -> Vec<u8> {
    let mut script = Writer::default();
    script.record(b"BK", &[2, 1]).record(b"VR", &[1]).record(b"PR", &[2, 1]);
    script.record(b"FM", &[3, kind]).record(b"BK", &[0, 0]);
    script.record(b"AR", &[1, operation, 1, 1]).bytes.clone()
}

/// The called procedure asks for one kind and gets a name of another, directly or by a formal.
fn argument_kinds(asked: usize, given: usize, way: usize) -> Vec<u8> {
    let mut script = Writer::default();
    script.record(b"BK", &[4, 1]).record(b"VR", &[1]).record(b"LB", &[2, 1]);
    script.record(b"PR", &[3, 1]).record(b"FM", &[9, asked]).record(b"BK", &[0, 0]);
    script.record(b"PR", &[4, 1]).record(b"FM", &[5, 2]).record(b"BK", &[0, 1]);
    let argument = [1, 2, 3][given];
    if way == 0 {
        script.record(b"CL", &[3, 1, argument]).record(b"CL", &[4, 1, 3]);
    } else {
        script.record(b"CL", &[5, 1, argument]).record(b"CL", &[4, 1, 3]);
    }
    script.bytes.clone()
}
