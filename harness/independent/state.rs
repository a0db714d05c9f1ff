//! What a state is turned down for (11 to 15), and how a run ends.

use crate::machine::{Memory, WORD, WORDS};

/// The largest budget.
pub const BUDGET: u64 = 1_000_000;
/// Places that the evaluator's row list must have.
pub const ROW_PLACES: usize = 128;

/// Reasons, as the C interface numbers them.
pub const HALTED: u64 = 1;
pub const SPENT: u64 = 2;
pub const PAPER: u64 = 3;

/// A refusal: its number, and the line or place.
#[derive(Clone, Copy, PartialEq, Eq, Debug)]
pub struct Refusal {
    pub number: u64,
    pub place: u64,
}

pub fn refuse<T>(number: u64, place: usize) -> Result<T, Refusal> {
    Err(Refusal { number, place: place as u64 })
}

/// 11 and 12, or the memory as an array.
fn acceptable(memory: &mut [u16]) -> Result<&mut Memory, Refusal> {
    if memory.len() != WORDS {
        return refuse(11, 0);
    }
    if let Some(place) = memory.iter().position(|word| *word > WORD) {
        return refuse(12, place);
    }
    match memory.try_into() {
        Ok(array) => Ok(array),
        Err(_) => refuse(11, 0),
    }
}

/// Refusals 11 to 14. A register place that no register uses has width 0.
pub fn check<'a>(memory: &'a mut [u16], registers: &[u16], widths: &[u8], budget: u64) -> Result<&'a mut Memory, Refusal> {
    let memory = acceptable(memory)?;
    for (place, value) in registers.iter().enumerate() {
        let width = widths.get(place).copied().unwrap_or(0);
        if u32::from(*value) >> width != 0 {
            return refuse(13, place);
        }
    }
    if budget > BUDGET {
        return refuse(14, 0);
    }
    Ok(memory)
}
