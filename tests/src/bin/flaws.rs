//! Counts how many generated cases each deliberately wrong engine gets wrong.
//! Arguments: cases (10000), seed (1).

use differential::compare::wrong;
use differential::inputs::case;
use differential::parties::{copy_rule, flawed};
use reference::fast::Flaw;

fn main() {
    let mut arguments = std::env::args().skip(1).map(|it| it.parse().expect("a number"));
    let cases = arguments.next().unwrap_or(10_000);
    let seed = arguments.next().unwrap_or(1);
    for &flaw in Flaw::ALL {
        let calls = (0..cases).map(|number| case(seed, number));
        let wrong = wrong(&copy_rule(), &flawed(flaw), calls);
        println!("{flaw:?}: {wrong} of {cases} wrong");
    }
}
