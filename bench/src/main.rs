//! The proved libraries beside the reference's fast implementation, in one process. One table,
//! a row for each workload; no time is asserted.

#[cfg(feature = "enrol")]
mod checks;
#[cfg(feature = "enrol")]
mod programs;
mod row;
#[cfg(feature = "enrol")]
mod runs;
#[cfg(feature = "enrol")]
mod scripts;
#[cfg(feature = "measure")]
mod tables;

/// Where code stands moves its time, so the table is taken at several places: what is linked after this stands so many bytes further on.
const PLACE: usize = match option_env!("BENCH_PLACE") {
    Some(digits) => number(digits.as_bytes(), 0),
    None => 0,
};

const fn number(digits: &[u8], before: usize) -> usize {
    match digits {
        [first, rest @ ..] => number(rest, 10 * before + (*first - b'0') as usize),
        [] => before,
    }
}

std::arch::global_asm!(
    ".pushsection .text.place, \"axR\", @progbits",
    ".p2align 6",
    ".skip {place}, 0x90",
    ".popsection",
    place = const PLACE,
);

fn main() {
    row::print_heading();
    #[cfg(feature = "enrol")]
    row::print(checks::rows());
    #[cfg(feature = "enrol")]
    row::print(runs::rows());
    #[cfg(feature = "measure")]
    row::print(tables::rows());
}
