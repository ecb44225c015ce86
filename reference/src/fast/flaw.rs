//! Plausible wrong engines, to measure how well tests tell them from a right one.

use super::run_variant;
use crate::answer::Answer;
use crate::request::{Lent, Request};

/// A type for each engine, so that the right one pays nothing for the others.
pub trait Variant {
    const FLAW: Option<Flaw>;
}

pub struct Right;

impl Variant for Right {
    const FLAW: Option<Flaw> = None;
}

macro_rules! flaws {
    ($($(#[$what:meta])* $flaw:ident,)*) => {
        #[derive(Clone, Copy, Debug, PartialEq, Eq)]
        pub enum Flaw {
            $($(#[$what])* $flaw,)*
        }

        impl Flaw {
            pub const ALL: &'static [Flaw] = &[$(Flaw::$flaw),*];
        }

        $(
            struct $flaw;

            impl Variant for $flaw {
                const FLAW: Option<Flaw> = Some(Flaw::$flaw);
            }
        )*

        /// The whole call by an engine that is wrong on purpose; it may panic where it goes astray.
        pub fn run_flawed(flaw: Flaw, request: &Request, lent: Lent) -> Answer {
            match flaw {
                $(Flaw::$flaw => run_variant::<$flaw>(request, lent),)*
            }
        }
    };
}

flaws! {
    /// A procedure's link is the newest activation of its declaring block.
    NewestLink,
    /// The display is not put back after a goto.
    StaleDisplay,
    /// The group limit is tested after the pair is written.
    LateGroupLimit,
    /// The sheet has each activation's caller for its encloser; the run is right.
    CallerShown,
    /// The sheet has the newest activation of the enclosing block below; the run is right.
    NewestShown,
    /// RM does not lower its group's number.
    NumberNotLowered,
    /// RM keeps a group of 0 members in the list.
    EmptyGroupKept,
    /// A group that leaves the list frees its last place without clearing it.
    FreedPlaceKept,
    /// AD puts a new group after all others.
    NewGroupLast,
    /// Every list that is long enough is taken.
    ListUnjudged,
    /// Groups of the list need not rise.
    OrderUnjudged,
    /// Places of the list with 0 members may stand between others.
    EmptyPlacesPassed,
    /// What stands in the list from its first group 0 on may be anything.
    UnusedUnjudged,
    /// The list's numbers are judged by their sum alone.
    SumAlone,
    /// The numbers of a table and a list that agree may be above the group limit.
    LimitUnjudged,
    /// The list must be 0 in the words after those asked for too.
    WholeListJudged,
    /// The list's length is tested after the table.
    ListLengthLate,
}
