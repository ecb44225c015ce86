//! Failing cases are cut down and can be run again.

use differential::call::Call;
use differential::compare::agree;
use differential::inputs::case;
use differential::parties::{copy_rule, flawed};
use differential::reduce::reduce;
use differential::report::{line, parse};
use reference::fast::Flaw;

fn small_case(flaw: Flaw) -> Call {
    let (judge, party) = (copy_rule(), flawed(flaw));
    let fails = |call: &Call| !agree(&judge, &party, call);
    let call = (0..).map(|number| case(34, number)).find(&fails).expect("cases do not end");
    let small = reduce(&call, &fails);
    assert!(fails(&small));
    assert!(small.script.len() <= call.script.len());
    println!("{flaw:?}: {}", line(&small));
    small
}

#[test]
fn wrong_engines_show_in_short_scripts() {
    let flaws = [
        Flaw::NewestLink,
        Flaw::StaleDisplay,
        Flaw::LateGroupLimit,
        Flaw::NumberNotLowered,
        Flaw::NewGroupLast,
    ];
    for flaw in flaws {
        let small = small_case(flaw);
        assert!(small.script.len() <= 240, "{flaw:?}: {}", line(&small));
        assert!(small.n <= 60, "{flaw:?}: {}", line(&small));
    }
}

/// With the words past the part needed alone where they matter.
#[test]
fn wrong_lists_show_beside_small_tables() {
    for flaw in [Flaw::EmptyPlacesPassed, Flaw::UnusedUnjudged, Flaw::SumAlone] {
        let small = small_case(flaw);
        assert!(small.table.len() <= 6, "{flaw:?}: {}", line(&small));
        assert_eq!(small.groups.len(), small.table.len(), "{flaw:?}: {}", line(&small));
    }
    let small = small_case(Flaw::WholeListJudged);
    assert_eq!((small.table.len(), small.groups.len()), (0, 1), "{}", line(&small));
}

#[test]
fn a_script_without_a_tree_is_cut_down() {
    let judge = copy_rule();
    let bad_mark = |call: &Call| matches!((judge.check)(&call.script), Ok((3, _)));
    let call = (0..).map(|number| case(32, number)).find(&bad_mark).expect("cases do not end");
    let small = reduce(&call, &bad_mark);
    assert!(bad_mark(&small));
    assert_eq!(small.script.len(), 2);
}

#[test]
fn a_line_gives_its_call_back() {
    for number in 0..500 {
        let call = case(33, number);
        assert_eq!(parse(&line(&call)), Some(call));
    }
}
