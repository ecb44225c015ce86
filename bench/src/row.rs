//! A workload for both, and its line of the table.

use std::time::{Duration, Instant};

/// As many rounds as fit into the time of a row, but not fewer or more than these.
const ROUNDS: (usize, usize) = (7, 200);
const ROW: Duration = Duration::from_millis(500);
/// A batch of calls takes about this long, so that reading the clock costs nothing.
const BATCH: Duration = Duration::from_millis(1);

pub type Work = Box<dyn FnMut()>;

pub struct Row {
    pub workload: String,
    pub size: String,
    pub library: Work,
    pub reference: Work,
}

/// Times of one call.
struct Measured {
    workload: String,
    size: String,
    library: Duration,
    reference: Duration,
}

impl Row {
    /// Best of several rounds in which the two take turns, so that both meet the same disturbances.
    fn measure(mut self) -> Measured {
        let calls = (calls_in_a_batch(&mut self.library), calls_in_a_batch(&mut self.reference));
        let (mut library, mut reference) = (Duration::MAX, Duration::MAX);
        let start = Instant::now();
        for _ in (0..ROUNDS.1).take_while(|&round| round < ROUNDS.0 || start.elapsed() < ROW) {
            library = library.min(time(&mut self.library, calls.0));
            reference = reference.min(time(&mut self.reference, calls.1));
        }
        Measured { workload: self.workload, size: self.size, library, reference }
    }
}

fn calls_in_a_batch(work: &mut Work) -> u32 {
    let mut calls = 1;
    while time(work, calls) * calls < BATCH {
        calls *= 2;
    }
    calls
}

/// Of one call, the mean of several.
fn time(work: &mut Work, calls: u32) -> Duration {
    let start = Instant::now();
    for _ in 0..calls {
        work();
    }
    start.elapsed() / calls
}

pub fn print(rows: impl IntoIterator<Item = Row>) {
    for row in rows {
        row.measure().print();
    }
}

pub fn print_heading() {
    print_line("workload", "size", "library", "reference", "ratio");
}

impl Measured {
    fn print(&self) {
        let ratio = self.library.as_secs_f64() / self.reference.as_secs_f64();
        print_line(
            &self.workload,
            &self.size,
            &microseconds(self.library),
            &microseconds(self.reference),
            &format!("{ratio:.2}"),
        );
    }
}

fn microseconds(time: Duration) -> String {
    format!("{:.2} µs", time.as_secs_f64() * 1e6)
}

fn print_line(workload: &str, size: &str, library: &str, reference: &str, ratio: &str) {
    println!("{workload:<44} {size:>14} {library:>14} {reference:>14} {ratio:>7}");
}
