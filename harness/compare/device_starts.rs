//! Random starts for both engines with devices: images dense in device words, short inputs, little room.

use crate::cases::EvaluateStart;
use crate::images::{self, Start};
use crate::random::Random;
use crate::states::{spoil, State};
use independent::description::Description;
use independent::evaluate_devices::places;

/// What the emulator with devices is called with. The output's bytes are what it holds before the call.
#[derive(Clone)]
pub struct DeviceStart {
    pub start: Start,
    pub devices: [u16; 5],
    pub input: Vec<u8>,
    pub output: Vec<u8>,
}

/// What the evaluator with devices is called with.
#[derive(Clone)]
pub struct DeviceEvaluateStart {
    pub start: EvaluateStart,
    pub input: Vec<u8>,
    pub output: Vec<u8>,
}

/// The words that area `device-words` tries: all of devices 03 and 04, the two of the interrupt, halts, and op 7 without one.
pub const WORDS: [u16; 24] = [
    0o6030, 0o6031, 0o6032, 0o6033, 0o6034, 0o6035, 0o6036, 0o6037, 0o6040, 0o6041, 0o6042, 0o6043, 0o6044, 0o6045, 0o6046, 0o6047, 0o6001, 0o6002,
    0o7402, 0o7602, 0o7412, 0o7403, 0o7000, 0o7404,
];

/// One of the eight instructions mostly, else a word beside them.
fn device_word(random: &mut Random) -> u16 {
    match random.below(12) {
        0 => 0o6030 + random.bits(4),
        1 => *random.pick(&[0o6001, 0o6001, 0o6002]),
        _ => *random.pick(&[0o6031, 0o6032, 0o6034, 0o6036, 0o6041, 0o6042, 0o6044, 0o6046]),
    }
}

/// A memory in which every second to fifth word is a device's.
fn memory(random: &mut Random) -> Vec<u16> {
    let mut words = images::memory(random);
    let every = random.between(2, 5);
    let mut at = random.below(every);
    while at < words.len() {
        if !(0o7..=0o20).contains(&at) {
            words[at] = device_word(random);
        }
        at += random.between(1, 2 * every - 1);
    }
    words
}

/// Registers of the devices: anything that fits.
fn devices(random: &mut Random) -> [u16; 5] {
    [random.bits(8), random.bits(1), random.bits(1), random.bits(8), random.bits(1)]
}

/// Random bytes, as many as one of the counts says.
fn bytes(random: &mut Random, counts: &[usize]) -> Vec<u8> {
    let count = *random.pick(counts);
    (0..count).map(|_| random.bits(8) as u8).collect()
}

pub fn input(random: &mut Random) -> Vec<u8> {
    bytes(random, &[0, 0, 1, 1, 2, 3, 6, 40])
}

pub fn output(random: &mut Random) -> Vec<u8> {
    bytes(random, &[0, 1, 1, 2, 3, 5, 9, 40, 300, 5000])
}

pub fn start(random: &mut Random) -> DeviceStart {
    let start = Start { memory: memory(random), registers: images::machine(random), budget: images::budget(random) };
    DeviceStart { start, devices: devices(random), input: input(random), output: output(random) }
}

/// The budget of the first of two calls.
pub fn first_budget(random: &mut Random) -> u64 {
    let most = *random.pick(&[0, 1, 3, 10, 100, 1_000]);
    random.between(0, most) as u64
}

/// One to three steps from one word, from any state that fits.
pub fn one_word(random: &mut Random, word: u16) -> DeviceStart {
    let mut start = images::one_word(random, word);
    start.budget = random.between(1, 3) as u64;
    for place in [start.registers[1] + 1, start.registers[1] + 2, 1, 2] {
        let word = device_word(random);
        start.memory[place as usize % 4096] = *random.pick(&[0o7000, 0o6001, word, word]);
    }
    start.memory[start.registers[1] as usize] = word;
    let input = bytes(random, &[0, 0, 1, 2]);
    let output = bytes(random, &[0, 1, 1, 2, 3]);
    DeviceStart { start, devices: devices(random), input, output }
}

/// A start that is turned down, nearly always; without the refusal the program would print.
pub fn spoiled(random: &mut Random) -> DeviceStart {
    let mut start = Start { memory: vec![0o6046; 4096], registers: images::machine(random), budget: 5 };
    start.memory[random.below(4096)] = random.bits(12);
    let mut values = [0; 11];
    values[..6].copy_from_slice(&start.registers);
    values[6..].copy_from_slice(&devices(random));
    let widths = independent::emulate_devices::widths();
    spoil(random, &mut State { memory: &mut start.memory, registers: &mut values, widths: &widths, budget: &mut start.budget, rows: None });
    start.registers.copy_from_slice(&values[..6]);
    let mut devices = [0; 5];
    devices.copy_from_slice(&values[6..]);
    DeviceStart { start, devices, input: input(random), output: output(random) }
}

/// The same start for the description with devices, whose working registers hold what `start` has there.
pub fn of_twin(machine: &DeviceStart, description: &Description, mut start: EvaluateStart) -> DeviceEvaluateStart {
    start.memory = machine.start.memory.clone();
    start.budget = machine.start.budget;
    start.registers[..6].copy_from_slice(&machine.start.registers);
    for (place, value) in places(description).into_iter().flatten().zip(machine.devices) {
        start.registers[place] = value;
    }
    DeviceEvaluateStart { start, input: machine.input.clone(), output: machine.output.clone() }
}

/// The emulator's start that a start of the description with devices is the same as.
pub fn of_machine(rows: &DeviceEvaluateStart, places: [usize; 5]) -> DeviceStart {
    let mut registers = [0; 6];
    registers.copy_from_slice(&rows.start.registers[..6]);
    let devices = places.map(|place| rows.start.registers[place]);
    let start = Start { memory: rows.start.memory.clone(), registers, budget: rows.start.budget };
    DeviceStart { start, devices, input: rows.input.clone(), output: rows.output.clone() }
}
