//! All implementations against the copy rule.

use differential::call::{Call, Engine};
use differential::compare::{assert_agree, assert_same_verdict};
use differential::lent::to;
use differential::parties::{copy_rule, fast, search};
use differential::random::Random;
use differential::{inputs, table_work};

/// Each on the call as it takes it; a further implementation is added here.
fn hold(origin: &str, call: &Call) {
    assert_agree(&copy_rule(), &fast(), origin, call);
    assert_agree(&copy_rule(), &search(), origin, &to(Engine::Search, call));
}

#[test]
fn generated_calls() {
    for seed in 1..=4 {
        for number in 0..10_000 {
            hold(&format!("seed {seed}, case {number}"), &inputs::case(seed, number));
        }
    }
}

#[test]
fn unfit_scripts() {
    for number in 0..100_000 {
        let script = inputs::unfit_script(&mut Random::new(10, number));
        let origin = format!("seed 10, case {number}");
        assert_same_verdict(&copy_rule(), "fast", &fast().check, &origin, &script);
    }
}

#[test]
fn every_allowance_and_name() {
    for number in 0..150 {
        let call = inputs::case(11, number);
        for n in 0..=call.n.min(60) {
            let name = (n % 16) as u16;
            hold(&format!("seed 11, case {number}"), &Call { n, name, ..call.clone() });
        }
    }
}

#[test]
fn long_runs() {
    for number in 0..200 {
        let call = Call { n: 20_000, ..inputs::case(12, number) };
        hold(&format!("seed 12, case {number}"), &call);
    }
}

#[test]
fn busy_tables() {
    for number in 0..400 {
        hold(&format!("table seed 13, case {number}"), &table_work::case(13, number));
    }
}
