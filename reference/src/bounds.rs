//! Bounds.

pub const SCRIPT_BYTES: usize = 8_192;
pub const LEVELS: usize = 16;
pub const NAMES: usize = 32;
pub const ARGUMENTS: usize = 32;
pub const ACTIVATIONS: u32 = 256;
pub const ALLOWANCE: u32 = 1_000_000;
pub const GROUP_LIMIT: u32 = 65_535;
pub const TALLY: u64 = 1_000_000_000_000;

/// Sheet words of one activation: block offset, next statement, encloser, and its names.
pub const SHEET_WORDS: usize = 3 + NAMES;
