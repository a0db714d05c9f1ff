//! The evaluator with devices: a description reaches them through five registers, which are found by name and width.

use crate::description::Description;
use crate::devices::{Devices, Lines, DEVICE_REGISTERS};
use crate::emulate_devices::reason;
use crate::evaluate::{ready, run};
use crate::machine::Memory;
use crate::rows::{cycle, Registers};
use crate::watch::{Unwatched, Watch};

/// The places of the five registers; none if one is lacking in name or width.
pub fn places(description: &Description) -> Option<[usize; 5]> {
    let mut found = [0; 5];
    for (place, (name, width)) in found.iter_mut().zip(DEVICE_REGISTERS) {
        *place = description.registers.iter().position(|r| r.name == name && r.width == width)?;
    }
    Some(found)
}

/// What guavachisel_evaluate_devices gives: refusal, cycles or the refusal's place, reason, rows, bytes that arrived, bytes printed.
pub fn evaluate_devices(text: &[u8], memory: &mut [u16], registers: &mut Registers, budget: u64, rows: &mut [u8], input: &[u8], output: &mut [u8]) -> [u64; 6] {
    evaluate_devices_watched(text, memory, registers, budget, rows, input, output, &mut Unwatched)
}

pub fn evaluate_devices_watched<W: Watch>(
    text: &[u8],
    memory: &mut [u16],
    registers: &mut Registers,
    budget: u64,
    rows: &mut [u8],
    input: &[u8],
    output: &mut [u8],
    watch: &mut W,
) -> [u64; 6] {
    match ready(text, memory, registers, budget, rows) {
        Err(refusal) => [refusal.number, refusal.place, 0, 0, 0, 0],
        Ok((description, memory)) => {
            let mut lines = Lines::new(input, output);
            let (steps, reason, acted) = match places(&description) {
                None => run(&description, memory, registers, budget),
                Some(places) => run_devices(&description, places, memory, registers, &mut lines, budget, watch),
            };
            rows[..acted.len()].copy_from_slice(&acted);
            [0, steps, reason, acted.len() as u64, lines.read as u64, lines.printed as u64]
        }
    }
}

/// Cycles done, the reason, and the rows that acted in the last cycle. The five registers are filled before each cycle.
fn run_devices<W: Watch>(
    description: &Description,
    places: [usize; 5],
    memory: &mut Memory,
    registers: &mut Registers,
    lines: &mut Lines,
    budget: u64,
    watch: &mut W,
) -> (u64, u64, Vec<u8>) {
    let mut acted = Vec::new();
    let mut steps = 0;
    while registers[description.run] == 1 && lines.has_room() && steps < budget {
        let mut devices = devices_at(places, registers);
        devices.begin(lines, watch);
        for (place, value) in places.into_iter().zip(devices.to_array()) {
            registers[place] = value;
        }
        acted = cycle(&description.rows, registers, memory);
        steps += 1;
        devices_at(places, registers).end(lines, watch);
    }
    (steps, reason(registers[description.run], lines.has_room()), acted)
}

fn devices_at(places: [usize; 5], registers: &Registers) -> Devices {
    Devices::from_array(places.map(|place| registers[place]))
}
