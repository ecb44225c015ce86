//! The proved library's script check against the copy rule's, through the C interface.

use differential::compare::assert_same_verdict;
use differential::encode::encode;
use differential::generate::program;
use differential::inputs::unfit_script;
use differential::parties::{copy_rule, library_check};
use differential::random::Random;
use differential::report::bytes;
use differential::shapes::at_a_bound;

fn hold(origin: &str, script: &[u8]) {
    assert_same_verdict(&copy_rule(), "library", &library_check(), origin, script);
}

fn generated(seed: u64, cases: u64, script: impl Fn(&mut Random) -> Vec<u8>) {
    for number in 0..cases {
        hold(&format!("seed {seed}, case {number}"), &script(&mut Random::new(seed, number)));
    }
}

#[test]
fn fit_scripts() {
    generated(41, 40_000, |random| encode(&program(random)).bytes);
}

#[test]
fn damaged_scripts() {
    generated(42, 100_000, unfit_script);
}

#[test]
fn scripts_at_and_around_each_bound() {
    generated(43, 20_000, at_a_bound);
}

#[test]
fn every_beginning_of_a_script() {
    for number in 0..40 {
        let script = encode(&program(&mut Random::new(44, number))).bytes;
        for length in 0..=script.len() {
            hold(&format!("seed 44, case {number}, {length} bytes"), &script[..length]);
        }
    }
}

#[test]
fn every_vector() {
    let text = include_str!("../vectors/checks.txt");
    let lines: Vec<&str> = text.lines().filter(|line| !line.starts_with('#')).collect();
    for (number, line) in lines.iter().enumerate() {
        let (script, verdict) = line.split_once(" | ").expect("a script and a verdict");
        let script = bytes(script).expect("hex");
        let (cause, offset) = library_check()(&script).expect("nothing else is written");
        assert_eq!(format!("{cause} {offset}"), verdict, "check {}: {line}", number + 1);
    }
    assert_eq!(lines.len(), 1_360);
}
