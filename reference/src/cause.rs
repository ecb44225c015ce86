//! Causes and numbers.

/// Why a script or a call is turned away.
#[derive(Clone, Copy, Debug, PartialEq, Eq)]
pub enum Refusal {
    Length = 1,
    PastEnd = 2,
    Mark = 3,
    Range = 4,
    Trailing = 5,
    Nesting = 6,
    Names = 7,
    Twice = 8,
    NotVisible = 9,
    WrongKind = 10,
    Arguments = 11,
    Limits = 12,
    TooShort = 13,
    Table = 14,
}

/// Why a run stops before a statement.
#[derive(Clone, Copy, Debug, PartialEq, Eq)]
pub enum Stop {
    Overflow = 21,
    Activations = 22,
    BelowOne = 23,
    GroupFull = 24,
    TableFull = 25,
    FormalArguments = 26,
}

/// A refusal with the byte offset of the record at fault, 0 where there is none.
#[derive(Clone, Copy, Debug, PartialEq, Eq)]
pub struct Refused {
    pub cause: Refusal,
    pub offset: usize,
}

impl Refusal {
    pub fn at(self, offset: usize) -> Refused {
        Refused { cause: self, offset }
    }
}
