//! Causes and numbers: the script check, causes 1 to 11.

use crate::bounds::SCRIPT_BYTES;
use crate::cause::{Refusal, Refused};
use crate::tree::Block;
use crate::{scope, structure};

/// The tree of an accepted script.
pub fn check(script: &[u8]) -> Result<Block, Refused> {
    if !length_fits(script.len()) {
        return Err(Refusal::Length.at(0));
    }
    let program = structure::program(script)?;
    scope::judge(&program)?;
    Ok(program)
}

pub fn length_fits(length: usize) -> bool {
    length > 0 && length <= SCRIPT_BYTES && length.is_multiple_of(2)
}
