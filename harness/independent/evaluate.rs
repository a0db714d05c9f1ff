//! The evaluator's entry: the text's refusals, then 11 to 15, then cycles while RUN is 1 and fewer than the budget are done.

use crate::description::{description, Description};
use crate::machine::Memory;
use crate::rows::{cycle, Registers};
use crate::state::{check, refuse, Refusal, HALTED, ROW_PLACES, SPENT};

/// The outcome as guavachisel_evaluate gives it.
pub fn evaluate(text: &[u8], memory: &mut [u16], registers: &mut Registers, budget: u64, rows: &mut [u8]) -> [u64; 4] {
    match ready(text, memory, registers, budget, rows) {
        Err(refusal) => [refusal.number, refusal.place, 0, 0],
        Ok((description, memory)) => {
            let (steps, reason, acted) = run(&description, memory, registers, budget);
            rows[..acted.len()].copy_from_slice(&acted);
            [0, steps, reason, acted.len() as u64]
        }
    }
}

/// A text and a state that no refusal is for.
pub fn ready<'a>(text: &[u8], memory: &'a mut [u16], registers: &Registers, budget: u64, rows: &[u8]) -> Result<(Description, &'a mut Memory), Refusal> {
    let description = description(text)?;
    let widths: Vec<u8> = description.registers.iter().map(|r| r.width).collect();
    let memory = check(memory, registers, &widths, budget)?;
    if rows.len() < ROW_PLACES {
        return refuse(15, 0);
    }
    Ok((description, memory))
}

/// Cycles done, the reason, and the rows that acted in the last cycle.
pub fn run(description: &Description, memory: &mut Memory, registers: &mut Registers, budget: u64) -> (u64, u64, Vec<u8>) {
    let mut acted = Vec::new();
    let mut steps = 0;
    while registers[description.run] == 1 && steps < budget {
        acted = cycle(&description.rows, registers, memory);
        steps += 1;
    }
    (steps, if registers[description.run] == 0 { HALTED } else { SPENT }, acted)
}
