//! What every entry asks of a table.

use crate::refusal::{not_rising, Refusal, TOO_MANY_KEYS};

pub const MOST_KEYS: usize = 32_768;

pub fn judge_count(keys: &[u64]) -> Result<(), Refusal> {
    if keys.len() > MOST_KEYS {
        Err(TOO_MANY_KEYS)
    } else {
        Ok(())
    }
}

pub fn judge_rising(keys: &[u64]) -> Result<(), Refusal> {
    for row in 1..keys.len() {
        if keys[row] <= keys[row - 1] {
            return Err(not_rising(row));
        }
    }
    Ok(())
}
