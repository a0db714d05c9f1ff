//! The library's entries.

use crate::library::{
    first, guavachisel_emulate, guavachisel_emulate_devices, guavachisel_evaluate, guavachisel_evaluate_devices, guavachisel_read, told, told_devices, OUTCOME_PLACES,
};
use rival::rows::Registers;

pub fn emulate(memory: &mut [u16], registers: &mut [u16; 6], budget: u64) -> [u64; 3] {
    let mut outcome = [0; OUTCOME_PLACES];
    unsafe { guavachisel_emulate(memory.as_mut_ptr(), memory.len(), registers.as_mut_ptr(), budget, outcome.as_mut_ptr()) };
    first(outcome)
}

pub fn read(text: &[u8]) -> [u64; 2] {
    let mut outcome = [0; OUTCOME_PLACES];
    unsafe { guavachisel_read(text.as_ptr(), text.len(), outcome.as_mut_ptr()) };
    first(outcome)
}

pub fn evaluate(text: &[u8], memory: &mut [u16], registers: &mut Registers, budget: u64, rows: &mut [u8]) -> [u64; 4] {
    let mut outcome = [0; OUTCOME_PLACES];
    unsafe {
        guavachisel_evaluate(
            text.as_ptr(),
            text.len(),
            memory.as_mut_ptr(),
            memory.len(),
            registers.as_mut_ptr(),
            budget,
            rows.as_mut_ptr(),
            rows.len(),
            outcome.as_mut_ptr(),
        )
    };
    told(outcome)
}

pub fn emulate_devices(memory: &mut [u16], registers: &mut [u16; 6], devices: &mut [u16; 5], budget: u64, input: &[u8], output: &mut [u8]) -> [u64; 6] {
    let mut outcome = [0; OUTCOME_PLACES];
    unsafe {
        guavachisel_emulate_devices(
            memory.as_mut_ptr(),
            memory.len(),
            registers.as_mut_ptr(),
            devices.as_mut_ptr(),
            budget,
            input.as_ptr(),
            input.len(),
            output.as_mut_ptr(),
            output.len(),
            outcome.as_mut_ptr(),
        )
    };
    told_devices(outcome)
}

pub fn evaluate_devices(text: &[u8], memory: &mut [u16], registers: &mut Registers, budget: u64, rows: &mut [u8], input: &[u8], output: &mut [u8]) -> [u64; 6] {
    let mut outcome = [0; OUTCOME_PLACES];
    unsafe {
        guavachisel_evaluate_devices(
            text.as_ptr(),
            text.len(),
            memory.as_mut_ptr(),
            memory.len(),
            registers.as_mut_ptr(),
            budget,
            rows.as_mut_ptr(),
            rows.len(),
            input.as_ptr(),
            input.len(),
            output.as_mut_ptr(),
            output.len(),
            outcome.as_mut_ptr(),
        )
    };
    told_devices(outcome)
}
