//! What a run is fed, and what it is lent.

/// The engine called, with the length of what only it is lent.
#[derive(Clone, Copy, Debug, PartialEq, Eq)]
pub enum Engine {
    /// `area` counts 32-bit words.
    Copying {
        area: usize,
    },
    /// `records` counts activation records.
    Chain {
        records: usize,
    },
    Display,
    Search,
}

#[derive(Clone, Copy, Debug)]
pub struct Request<'a> {
    pub engine: Engine,
    pub script: &'a [u8],
    pub d: u32,
    pub n: u32,
    pub g: u32,
    pub tally: u64,
    pub count: usize,
    pub name: u16,
}

/// What every run is lent and leaves as the engine must leave it.
pub struct Lent<'a> {
    pub table: &'a mut [i32],
    /// The list of groups: two words a place, a group and its number of members.
    pub groups: &'a mut [i32],
    pub sheet: &'a mut [i32],
}
