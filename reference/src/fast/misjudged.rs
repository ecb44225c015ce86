//! Wrong tests of the list of groups, each without one of the rules or with one too many.

use super::flaw::{Flaw, Variant};
use crate::cause::{Refusal, Refused};
use crate::request::{Lent, Request};
use crate::table::{is_right, list, list_words};

/// A refusal that is not due, or due later; to be asked for before the list's length is tested.
pub fn too_soon<V: Variant>(request: &Request, lent: &Lent) -> Result<(), Refused> {
    let refused = match V::FLAW {
        Some(Flaw::ListLengthLate) => !is_right(lent.table, request.count, request.g),
        Some(Flaw::WholeListJudged) => {
            lent.groups.iter().skip(list_words(lent.table.len())).any(|&word| word != 0)
        }
        _ => false,
    };
    if refused {
        Err(Refusal::Table.at(0))
    } else {
        Ok(())
    }
}

/// The list as a test without one of the rules takes it.
pub fn taken<V: Variant>(request: &Request, lent: &Lent) -> Vec<i32> {
    let right = || list(lent.table, request.count);
    let needed = &lent.groups[..list_words(lent.table.len())];
    let mut places = needed.as_chunks::<2>().0.to_vec();
    match V::FLAW {
        Some(Flaw::ListUnjudged) => return right(),
        Some(Flaw::SumAlone) if same_but_for_numbers(needed, &right()) => return right(),
        Some(Flaw::OrderUnjudged) => places.sort_by_key(|place| (place[0] == 0, place[0])),
        Some(Flaw::EmptyPlacesPassed) => {
            places.retain(|place| place[1] != 0);
            places.resize(needed.len() / 2, [0, 0]);
        }
        Some(Flaw::UnusedUnjudged) => {
            let used = places.iter().take_while(|place| place[0] != 0).count();
            places[used..].fill([0, 0]);
        }
        _ => {}
    }
    places.concat()
}

/// Whether two lists have the same groups and the same sum of numbers.
fn same_but_for_numbers(one: &[i32], other: &[i32]) -> bool {
    let groups = |list: &[i32]| list.iter().step_by(2).copied().collect::<Vec<_>>();
    let sum = |list: &[i32]| list.iter().skip(1).step_by(2).map(|&it| i64::from(it)).sum::<i64>();
    groups(one) == groups(other) && sum(one) == sum(other)
}
