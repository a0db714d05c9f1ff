//! Calls of the entries with devices, everything lent between guard places as in entries.rs. The input has to stay.

use crate::device_starts::{DeviceEvaluateStart, DeviceStart};
use crate::entries::Guarded;
use crate::library::{guavachisel_emulate_devices, guavachisel_evaluate_devices, told_devices, OUTCOME_PLACES};

/// NULL for no input, every other time.
fn input_pointer(input: &mut Guarded<u8>, bytes: usize, budget: u64) -> *const u8 {
    if bytes == 0 && budget % 2 == 1 { std::ptr::null() } else { input.pointer() }
}

/// Refusal, steps or the refusal's place, reason, rows, bytes that arrived, bytes printed. What was lent is as the call left it.
pub fn emulate(lent: &mut DeviceStart) -> [u64; 6] {
    let start = &mut lent.start;
    let mut words = Guarded::new(&start.memory, 0xa5a5);
    let mut values = Guarded::new(&start.registers[..], 0x5a5a);
    let mut devices = Guarded::new(&lent.devices[..], 0x7e7e);
    let mut input = Guarded::new(&lent.input, 0xc3);
    let mut output = Guarded::new(&lent.output, 0x3c);
    let mut outcome = Guarded::new(&[77; OUTCOME_PLACES], u64::MAX - 5);
    unsafe {
        guavachisel_emulate_devices(
            words.pointer(),
            start.memory.len(),
            values.pointer(),
            devices.pointer(),
            start.budget,
            input_pointer(&mut input, lent.input.len(), start.budget),
            lent.input.len(),
            output.pointer(),
            lent.output.len(),
            outcome.pointer(),
        )
    };
    words.take_back(&mut start.memory, "memory");
    values.take_back(&mut start.registers, "registers");
    devices.take_back(&mut lent.devices, "devices");
    assert!(input.stayed(&lent.input), "the input was written to");
    output.take_back(&mut lent.output, "output");
    let mut answer = [0; OUTCOME_PLACES];
    outcome.take_back(&mut answer, "outcome");
    told_devices(answer)
}

/// The same of the evaluator.
pub fn evaluate(lent: &mut DeviceEvaluateStart) -> [u64; 6] {
    let start = &mut lent.start;
    let mut text = Guarded::new(&start.text, b'1');
    let mut words = Guarded::new(&start.memory, 0xa5a5);
    let mut values = Guarded::new(&start.registers[..], 0x5a5a);
    let mut list = Guarded::new(&start.rows, 0xa5);
    let mut input = Guarded::new(&lent.input, 0xc3);
    let mut output = Guarded::new(&lent.output, 0x3c);
    let mut outcome = Guarded::new(&[77; OUTCOME_PLACES], u64::MAX - 5);
    unsafe {
        guavachisel_evaluate_devices(
            text.pointer(),
            start.text.len(),
            words.pointer(),
            start.memory.len(),
            values.pointer(),
            start.budget,
            list.pointer(),
            start.rows.len(),
            input_pointer(&mut input, lent.input.len(), start.budget),
            lent.input.len(),
            output.pointer(),
            lent.output.len(),
            outcome.pointer(),
        )
    };
    assert!(text.stayed(&start.text), "the text was written to");
    words.take_back(&mut start.memory, "memory");
    values.take_back(&mut start.registers, "registers");
    list.take_back(&mut start.rows, "row list");
    assert!(input.stayed(&lent.input), "the input was written to");
    output.take_back(&mut lent.output, "output");
    let mut answer = [0; OUTCOME_PLACES];
    outcome.take_back(&mut answer, "outcome");
    told_devices(answer)
}
