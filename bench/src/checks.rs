//! The script check on fit scripts of the greatest length and of half of it.

use std::hint::black_box;

use crate::row::Row;
use crate::scripts::{calls, flat, many_names, nested, procedures};

type OfLength = fn(usize) -> Vec<u8>;

const LENGTHS: [usize; 2] = [4_096, 8_192];

pub fn rows() -> Vec<Row> {
    let workloads: [(&str, OfLength); 5] = [
        ("check, deep nesting", nested),
        ("check, procedures inside each other", procedures),
        ("check, many names and uses", many_names),
        ("check, calls with 32 arguments", calls),
        ("check, one long list of statements", flat),
    ];
    let of_each_length = workloads
        .into_iter()
        .flat_map(|(workload, script)| LENGTHS.map(|length| row(workload, script(length))));
    of_each_length.collect()
}

fn row(workload: &'static str, script: Vec<u8>) -> Row {
    assert_eq!(reference::fast::check(&script), Ok(()), "{workload}");
    assert_eq!(binding::enrol::check(&script), [0, 0], "{workload}");
    let same = script.clone();
    Row {
        workload: workload.into(),
        size: format!("{} bytes", script.len()),
        library: Box::new(move || {
            black_box(binding::enrol::check(black_box(&script)));
        }),
        reference: Box::new(move || {
            let _ = black_box(reference::fast::check(black_box(&same)));
        }),
    }
}
