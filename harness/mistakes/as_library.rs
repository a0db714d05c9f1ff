//! The independent implementation behind the C entries, so that an altered copy of it can stand in for the library.

use std::slice::{from_raw_parts, from_raw_parts_mut};

/// The shipped descriptions: without devices and with them.
const SHIPPED: [&[u8]; 2] = [include_bytes!("../../description/pdp8.rows"), include_bytes!("../../description/pdp8-devices.rows")];

/// An outcome, as the header has it, of refusal, steps or the refusal's place, reason and rows.
fn outcome_of(refusal: u64, said: u64, reason: u64, rows: u64) -> [u64; 9] {
    outcome_devices([refusal, said, reason, rows, 0, 0])
}

/// The same with bytes that arrived and bytes printed.
fn outcome_devices([refusal, said, reason, rows, read, printed]: [u64; 6]) -> [u64; 9] {
    let (place, steps) = if refusal == 0 { (0, said) } else { (said, 0) };
    [refusal, place, steps, reason, rows, read, printed, 0, 0]
}

/// A line or an input, which may be NULL where it has no bytes.
unsafe fn bytes_of<'a>(first: *const u8, bytes: usize) -> &'a [u8] {
    if bytes == 0 { &[] } else { from_raw_parts(first, bytes) }
}

#[no_mangle]
pub unsafe extern "C" fn guavachisel_emulate(memory: *mut u16, words: usize, registers: &mut [u16; 6], budget: u64, outcome: &mut [u64; 9]) {
    let [refusal, said, reason] = independent::emulate(from_raw_parts_mut(memory, words), registers, budget);
    *outcome = outcome_of(refusal, said, reason, 0);
}

#[no_mangle]
pub unsafe extern "C" fn guavachisel_read(text: *const u8, bytes: usize, outcome: &mut [u64; 9]) {
    let [refusal, line] = independent::read(from_raw_parts(text, bytes));
    *outcome = outcome_of(refusal, line, 0, 0);
}

#[no_mangle]
pub unsafe extern "C" fn guavachisel_read_constant(line: *const u8, bytes: usize, start: u64, constant: &mut [u64; 5]) {
    *constant = independent::read_constant(bytes_of(line, bytes), start);
}

#[no_mangle]
pub unsafe extern "C" fn guavachisel_evaluate(
    text: *const u8,
    bytes: usize,
    memory: *mut u16,
    words: usize,
    registers: &mut independent::rows::Registers,
    budget: u64,
    rows: *mut u8,
    places: usize,
    outcome: &mut [u64; 9],
) {
    let text = from_raw_parts(text, bytes);
    let [refusal, said, reason, listed] =
        independent::evaluate(text, from_raw_parts_mut(memory, words), registers, budget, from_raw_parts_mut(rows, places));
    *outcome = outcome_of(refusal, said, reason, listed);
}

#[no_mangle]
pub unsafe extern "C" fn guavachisel_emulate_devices(
    memory: *mut u16,
    words: usize,
    machine: &mut [u16; 6],
    devices: &mut [u16; 5],
    budget: u64,
    input: *const u8,
    bytes: usize,
    output: *mut u8,
    room: usize,
    outcome: &mut [u64; 9],
) {
    let (memory, input, output) = (from_raw_parts_mut(memory, words), bytes_of(input, bytes), from_raw_parts_mut(output, room));
    *outcome = outcome_devices(independent::emulate_devices(memory, machine, devices, budget, input, output));
}

#[no_mangle]
pub unsafe extern "C" fn guavachisel_evaluate_devices(
    text: *const u8,
    bytes: usize,
    memory: *mut u16,
    words: usize,
    registers: &mut independent::rows::Registers,
    budget: u64,
    rows: *mut u8,
    places: usize,
    input: *const u8,
    input_bytes: usize,
    output: *mut u8,
    room: usize,
    outcome: &mut [u64; 9],
) {
    let (text, memory, rows) = (from_raw_parts(text, bytes), from_raw_parts_mut(memory, words), from_raw_parts_mut(rows, places));
    let (input, output) = (bytes_of(input, input_bytes), from_raw_parts_mut(output, room));
    *outcome = outcome_devices(independent::evaluate_devices(text, memory, registers, budget, rows, input, output));
}

#[no_mangle]
pub unsafe extern "C" fn guavachisel_shipped(which: u64, text: *mut u8, room: usize, outcome: &mut [u64; 9]) {
    let shipped = SHIPPED.get(which as usize).copied().unwrap_or(&[]);
    if shipped.len() <= room {
        from_raw_parts_mut(text, shipped.len()).copy_from_slice(shipped);
    }
    *outcome = [0, 0, 0, 0, 0, 0, 0, shipped.len() as u64, 0];
}
