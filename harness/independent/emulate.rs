//! The emulator's entry: refusals 11 to 14, then steps while RUN is 1 and fewer than the budget are done.

use crate::machine::{step, Machine, Memory, Nothing, WIDTHS};
use crate::state::{check, HALTED, SPENT};
use crate::watch::{Unwatched, Watch};

/// Steps done and the reason.
#[inline(always)]
pub fn run<W: Watch>(memory: &mut Memory, machine: &mut Machine, budget: u64, watch: &mut W) -> (u64, u64) {
    let mut steps = 0;
    while machine.run == 1 && steps < budget {
        step(memory, machine, &mut Nothing, watch);
        steps += 1;
    }
    (steps, if machine.run == 0 { HALTED } else { SPENT })
}

/// The outcome as guavachisel_emulate gives it.
pub fn emulate(memory: &mut [u16], registers: &mut [u16; 6], budget: u64) -> [u64; 3] {
    emulate_watched(memory, registers, budget, &mut Unwatched)
}

pub fn emulate_watched<W: Watch>(memory: &mut [u16], registers: &mut [u16; 6], budget: u64, watch: &mut W) -> [u64; 3] {
    match check(memory, registers, &WIDTHS, budget) {
        Err(refusal) => [refusal.number, refusal.place, 0],
        Ok(memory) => {
            let mut machine = Machine::from_array(*registers);
            let (steps, reason) = run(memory, &mut machine, budget, watch);
            *registers = machine.to_array();
            [0, steps, reason]
        }
    }
}
