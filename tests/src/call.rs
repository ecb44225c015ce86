//! A call with all that it is fed and lent, and what an implementation makes of it.

#[derive(Clone, Copy, Debug, PartialEq, Eq)]
pub enum Engine {
    Copying,
    Chain,
    Display,
    Search,
}

pub const ENGINES: [Engine; 4] = [Engine::Copying, Engine::Chain, Engine::Display, Engine::Search];

#[derive(Clone, Debug, PartialEq, Eq)]
pub struct Call {
    pub engine: Engine,
    pub script: Vec<u8>,
    pub d: u32,
    pub n: u32,
    pub g: u32,
    pub tally: u64,
    pub count: usize,
    pub name: u16,
    pub table: Vec<i32>,
    /// The list of the table's groups, each with its number of members.
    pub groups: Vec<i32>,
    pub sheet: Vec<i32>,
    /// The copying area, or the chain's records with three words each; empty for the others.
    pub working: Vec<u32>,
}

/// The answer in the C interface's words, and what has become of all that was lent.
#[derive(Clone, Debug, PartialEq, Eq)]
pub struct Reply {
    pub answer: [u64; 9],
    pub table: Vec<i32>,
    pub groups: Vec<i32>,
    pub sheet: Vec<i32>,
    pub working: Vec<u32>,
}

/// Number and offset of the script check, or what it changed and may not.
pub type Verdict = Result<(u64, u64), String>;

const REFUSED: u64 = 3;

impl Reply {
    pub fn refused(&self) -> bool {
        self.answer[0] == REFUSED
    }

    /// Working areas are fixed only on a refusal; after a run they keep their lengths.
    pub fn agrees(&self, other: &Reply) -> bool {
        let working = if self.refused() {
            self.working == other.working
        } else {
            self.working.len() == other.working.len()
        };
        self.answer == other.answer
            && self.table == other.table
            && self.groups == other.groups
            && self.sheet == other.sheet
            && working
    }
}
