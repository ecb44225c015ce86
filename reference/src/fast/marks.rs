//! Marks as they read in the script's little-endian words.

pub const BK: u16 = u16::from_le_bytes(*b"BK");
pub const VR: u16 = u16::from_le_bytes(*b"VR");
pub const LB: u16 = u16::from_le_bytes(*b"LB");
pub const PR: u16 = u16::from_le_bytes(*b"PR");
pub const FM: u16 = u16::from_le_bytes(*b"FM");
pub const CL: u16 = u16::from_le_bytes(*b"CL");
pub const GO: u16 = u16::from_le_bytes(*b"GO");
pub const IF: u16 = u16::from_le_bytes(*b"IF");
pub const KN: u16 = u16::from_le_bytes(*b"KN");
pub const AR: u16 = u16::from_le_bytes(*b"AR");
pub const AD: u16 = u16::from_le_bytes(*b"AD");
pub const RM: u16 = u16::from_le_bytes(*b"RM");
pub const QY: u16 = u16::from_le_bytes(*b"QY");

/// The word at an even offset that has been seen to lie inside the script.
pub fn word(script: &[u8], offset: usize) -> u16 {
    u16::from_le_bytes([script[offset], script[offset + 1]])
}
