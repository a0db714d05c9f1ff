//! How fast an entry is: so many calls, each from what the last one left.

use crate::programs::Program;
use crate::timing::timed;
use rival::description::REGISTERS;
use rival::rows::Registers;

pub type Emulate = fn(&mut [u16], &mut [u16; 6], u64) -> [u64; 3];
pub type Evaluate = fn(&[u8], &mut [u16], &mut Registers, u64, &mut [u8]) -> [u64; 4];
pub type Read = fn(&[u8]) -> [u64; 2];

/// Steps a second over so many calls, each from what the last one left, and the end.
pub fn emulator_rate(emulate: Emulate, program: &Program, calls: u64, budget: u64) -> (f64, [u16; 6]) {
    let mut memory = program.memory();
    let mut registers = [0, 0o200, 1, 0, 0, 0];
    let seconds = timed(|| {
        for _ in 0..calls {
            assert_eq!(emulate(&mut memory, &mut registers, budget), [0, budget, 2]);
        }
    });
    ((calls * budget) as f64 / seconds, registers)
}

/// Cycles a second of the shipped description, and the end.
pub fn evaluator_rate(evaluate: Evaluate, text: &[u8], program: &Program, calls: u64, budget: u64) -> (f64, Registers) {
    let mut memory = program.memory();
    let mut registers = [0; REGISTERS];
    registers[1] = 0o200;
    registers[2] = 1;
    let mut rows = [0; 128];
    let seconds = timed(|| {
        for _ in 0..calls {
            let outcome = evaluate(text, &mut memory, &mut registers, budget, &mut rows);
            assert_eq!([outcome[0], outcome[1], outcome[2]], [0, budget, 2]);
        }
    });
    ((calls * budget) as f64 / seconds, registers)
}

/// Megabytes a second.
pub fn reader_rate(read: Read, text: &[u8], calls: u64) -> f64 {
    let seconds = timed(|| {
        for _ in 0..calls {
            assert_eq!(read(text), [0, 0], "not accepted");
        }
    });
    (calls as usize * text.len()) as f64 / seconds / 1e6
}

pub type EmulateDevices = fn(&mut [u16], &mut [u16; 6], &mut [u16; 5], u64, &[u8], &mut [u8]) -> [u64; 6];
pub type EvaluateDevices = fn(&[u8], &mut [u16], &mut Registers, u64, &mut [u8], &[u8], &mut [u8]) -> [u64; 6];

/// Steps a second with devices, nothing typed, each call with room for all that it prints; and the end.
pub fn devices_rate(emulate: EmulateDevices, program: &Program, calls: u64, budget: u64) -> (f64, [u16; 6]) {
    let mut memory = program.memory();
    let mut registers = [0, 0o200, 1, 0, 0, 0];
    let mut devices = [0; 5];
    let mut output = vec![0; budget as usize];
    let seconds = timed(|| {
        for _ in 0..calls {
            assert_eq!(emulate(&mut memory, &mut registers, &mut devices, budget, &[], &mut output)[..3], [0, budget, 2]);
        }
    });
    ((calls * budget) as f64 / seconds, registers)
}

/// Cycles a second of the description with devices, and the end.
pub fn twin_rate(evaluate: EvaluateDevices, text: &[u8], program: &Program, calls: u64, budget: u64) -> (f64, Registers) {
    let mut memory = program.memory();
    let mut registers = [0; REGISTERS];
    registers[1] = 0o200;
    registers[2] = 1;
    let mut rows = [0; 128];
    let mut output = vec![0; budget as usize];
    let seconds = timed(|| {
        for _ in 0..calls {
            assert_eq!(evaluate(text, &mut memory, &mut registers, budget, &mut rows, &[], &mut output)[..3], [0, budget, 2]);
        }
    });
    ((calls * budget) as f64 / seconds, registers)
}
