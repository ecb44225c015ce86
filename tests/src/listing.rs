//! A script as readable records, as far as its marks go.

use std::fmt::Write;

/// Fields after the mark; a call's arguments come on top, a constant's value is two.
fn fields(mark: &[u8]) -> Option<usize> {
    match mark {
        b"VR" | b"GO" => Some(1),
        b"BK" | b"LB" | b"PR" | b"FM" | b"CL" | b"IF" | b"AD" | b"RM" => Some(2),
        b"KN" | b"QY" => Some(3),
        b"AR" => Some(4),
        _ => None,
    }
}

pub fn listing(script: &[u8]) -> String {
    let mut text = String::new();
    let mut at = 0;
    while let Some(next) = record(script, at, &mut text) {
        at = next;
    }
    if at < script.len() {
        write!(text, "then {:02x?}", &script[at..]).expect("a string takes all that is written");
    }
    text
}

/// Writes the record at an offset and gives the next one's.
fn record(script: &[u8], at: usize, text: &mut String) -> Option<usize> {
    let word = |index: usize| {
        let bytes = script.get(at + 2 * index..at + 2 * index + 2)?;
        Some(u16::from_le_bytes([bytes[0], bytes[1]]))
    };
    let mark = script.get(at..at + 2)?;
    let mut count = fields(mark)?;
    if mark == b"CL" {
        count += usize::from(word(2)?);
    }
    let mut record = String::from_utf8_lossy(mark).into_owned();
    if mark == b"KN" {
        let value = u32::from(word(2)?) | u32::from(word(3)?) << 16;
        write!(record, " {} {}", word(1)?, value as i32).ok()?;
    } else {
        for index in 1..=count {
            write!(record, " {}", word(index)?).ok()?;
        }
    }
    text.push_str(&record);
    text.push_str(", ");
    Some(at + 2 * (count + 1))
}
