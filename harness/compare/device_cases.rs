//! How the cases with devices are compared.

use crate::cases::{unequal, unequal_bytes, unequal_words, Case};
use crate::coverage::Coverage;
use crate::device_entries;
use crate::device_starts::{of_machine, DeviceEvaluateStart, DeviceStart};
use independent::description::description;
use independent::emulate_devices::emulate_devices_watched;
use independent::evaluate_devices::{evaluate_devices_watched, places};

const EMULATE: &str = "emulate_devices";
const EVALUATE: &str = "evaluate_devices";

/// What the Rust emulator gives, and what it leaves of what it is lent.
pub fn own_emulation(lent: &mut DeviceStart, coverage: &mut Coverage) -> [u64; 6] {
    let DeviceStart { start, devices, input, output } = lent;
    coverage.new_run();
    emulate_devices_watched(&mut start.memory, &mut start.registers, devices, start.budget, input, output, coverage)
}

/// The same of the Rust evaluator.
pub fn own_evaluation(lent: &mut DeviceEvaluateStart, coverage: &mut Coverage) -> [u64; 6] {
    let DeviceEvaluateStart { start, input, output } = lent;
    evaluate_devices_watched(&start.text, &mut start.memory, &mut start.registers, start.budget, &mut start.rows, input, output, coverage)
}

/// What two emulators leave; what they printed is compared with the room that they leave as it came.
fn unequal_ends(library: &DeviceStart, own: &DeviceStart) -> Option<String> {
    unequal("registers", library.start.registers, own.start.registers)
        .or_else(|| unequal("devices", library.devices, own.devices))
        .or_else(|| unequal_bytes("output", &library.output, &own.output))
        .or_else(|| unequal_words("memory", &library.start.memory, &own.start.memory))
}

fn unequal_evaluations(library: &DeviceEvaluateStart, own: &DeviceEvaluateStart) -> Option<String> {
    unequal("registers", library.start.registers, own.start.registers)
        .or_else(|| unequal_bytes("row list", &library.start.rows, &own.start.rows))
        .or_else(|| unequal_bytes("output", &library.output, &own.output))
        .or_else(|| unequal_words("memory", &library.start.memory, &own.start.memory))
}

pub fn emulated(start: &DeviceStart, coverage: &mut Coverage) -> Option<String> {
    let (mut library, mut own) = (start.clone(), start.clone());
    let rust = own_emulation(&mut own, coverage);
    coverage.devices_outcome(EMULATE, rust, start.start.budget, start.output.len());
    let outcome = device_entries::emulate(&mut library);
    if outcome[0] != 0 {
        if let Some(found) = unequal_ends(&library, start) {
            return Some(format!("changed at refusal {}: {}", outcome[0], found));
        }
    }
    unequal("outcome", outcome, rust).or_else(|| unequal_ends(&library, &own))
}

pub fn evaluated(start: &DeviceEvaluateStart, coverage: &mut Coverage) -> Option<String> {
    let (mut library, mut own) = (start.clone(), start.clone());
    let rust = own_evaluation(&mut own, coverage);
    coverage.devices_outcome(EVALUATE, rust, start.start.budget, start.output.len());
    coverage.description_with_devices(&start.start.text, start.input.len(), start.output.len());
    let outcome = device_entries::evaluate(&mut library);
    if outcome[0] != 0 {
        if let Some(found) = unequal_evaluations(&library, start) {
            return Some(format!("changed at refusal {}: {}", outcome[0], found));
        }
    }
    unequal("outcome", outcome, rust).or_else(|| unequal_evaluations(&library, &own))
}

/// The description with devices: evaluator and emulator, each beside the Rust one, then the library's two beside each other.
pub fn twin(start: &DeviceEvaluateStart, coverage: &mut Coverage) -> Option<String> {
    let places = match description(&start.start.text).ok().and_then(|d| places(&d)) {
        Some(places) => places,
        None => return Some("the description with devices lacks one of the five registers".to_string()),
    };
    let machine = of_machine(start, places);
    if let Some(found) = evaluated(start, coverage).or_else(|| emulated(&machine, coverage)) {
        return Some(found);
    }
    let (mut by_rows, mut by_machine) = (start.clone(), machine);
    let rows = device_entries::evaluate(&mut by_rows);
    let [refusal, steps, reason, _, read, printed] = rows;
    let outcome = device_entries::emulate(&mut by_machine);
    unequal("evaluator and emulator, outcome", [refusal, steps, reason, 0, read, printed], outcome)
        .or_else(|| unequal_ends(&of_machine(&by_rows, places), &by_machine))
        .map(|found| format!("evaluator beside emulator: {}", found))
}

/// Two calls, the second from what the first left, beside one call of as many steps; nothing where that is refused.
pub fn split(case: &Case, first: u64) -> Option<String> {
    match case {
        Case::EmulateDevices(start) => split_emulation(start, first),
        Case::EvaluateDevices(start) => split_evaluation(start, first),
        _ => None,
    }
}

/// The outcome of two calls as one call would give it; a call of no steps lists no rows.
fn joined(first: [u64; 6], second: [u64; 6]) -> [u64; 6] {
    let rows = if second[1] == 0 { first[3] } else { second[3] };
    [second[0], first[1] + second[1], second[2], rows, first[4] + second[4], first[5] + second[5]]
}

fn split_emulation(start: &DeviceStart, first: u64) -> Option<String> {
    let mut whole = start.clone();
    let outcome = device_entries::emulate(&mut whole);
    if outcome[0] != 0 {
        return None;
    }
    let mut left = start.clone();
    left.start.budget = first.min(start.start.budget);
    let one = device_entries::emulate(&mut left);
    let mut written = left.output.clone();
    left.input.drain(..one[4] as usize);
    left.output.drain(..one[5] as usize);
    left.start.budget = start.start.budget - first.min(start.start.budget);
    let two = device_entries::emulate(&mut left);
    written.splice(one[5] as usize.., left.output);
    left.output = written;
    unequal("one call and two, outcome", joined(one, two), outcome).or_else(|| unequal_ends(&left, &whole)).map(split_found)
}

fn split_evaluation(start: &DeviceEvaluateStart, first: u64) -> Option<String> {
    let mut whole = start.clone();
    let outcome = device_entries::evaluate(&mut whole);
    if outcome[0] != 0 {
        return None;
    }
    let mut left = start.clone();
    left.start.budget = first.min(start.start.budget);
    let one = device_entries::evaluate(&mut left);
    let mut written = left.output.clone();
    left.input.drain(..one[4] as usize);
    left.output.drain(..one[5] as usize);
    left.start.budget = start.start.budget - first.min(start.start.budget);
    let two = device_entries::evaluate(&mut left);
    written.splice(one[5] as usize.., left.output);
    left.output = written;
    // places after the rows listed stay as the first call left them
    let listed = joined(one, two)[3] as usize;
    left.start.rows.truncate(listed);
    whole.start.rows.truncate(listed);
    unequal("one call and two, outcome", joined(one, two), outcome).or_else(|| unequal_evaluations(&left, &whole)).map(split_found)
}

fn split_found(found: String) -> String {
    format!("two calls beside one: {}", found)
}
