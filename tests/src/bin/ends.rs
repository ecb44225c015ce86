//! Counts the ends of generated cases, to see that the generator reaches all of them.
//! Arguments: cases (10000), seed (1).

use std::collections::BTreeMap;

use differential::inputs::case;
use differential::parties::fast;

fn main() {
    let mut arguments = std::env::args().skip(1).map(|it| it.parse().expect("a number"));
    let cases: u64 = arguments.next().unwrap_or(10_000);
    let seed: u64 = arguments.next().unwrap_or(1);
    let fast = fast();
    let mut ends: BTreeMap<(u64, u64), (u64, u64)> = BTreeMap::new();
    for number in 0..cases {
        let answer = (fast.run)(&case(seed, number)).answer;
        let (count, steps) = ends.entry((answer[0], answer[1])).or_default();
        *count += 1;
        *steps += answer[2];
    }
    for ((end, number), (count, steps)) in ends {
        let end = ["finished", "spent", "stopped", "refused"][end as usize];
        println!("{end} {number}: {count} cases, {} steps on average", steps / count);
    }
}
