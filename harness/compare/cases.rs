//! One case of each kind: how it is compared, made smaller and printed.

use crate::constant_cases;
use crate::constant_known::KnownLine;
use crate::coverage::Coverage;
use crate::device_cases;
use crate::device_starts::{DeviceEvaluateStart, DeviceStart};
use crate::entries;
use crate::images::Start;
use crate::programs::{self, Program};
use independent::rows::Registers;
use std::sync::Arc;

/// What the evaluator is called with.
#[derive(Clone)]
pub struct EvaluateStart {
    pub text: Vec<u8>,
    pub memory: Vec<u16>,
    pub registers: Registers,
    pub budget: u64,
    pub rows: Vec<u8>,
}

#[derive(Clone)]
pub enum Case {
    Emulate(Start),
    Read(Vec<u8>),
    /// A text with the answer that document 01 gives.
    Known(Vec<u8>, [u64; 2]),
    /// A line to read constants from.
    Constants(Vec<u8>),
    /// A line with the answers that documents 01 and 02 give.
    KnownConstants(KnownLine),
    Evaluate(EvaluateStart),
    /// The shipped description, by the evaluator and by the emulator.
    Shipped(EvaluateStart),
    /// A program and its input.
    Print(Arc<Program>, Vec<u8>),
    EmulateDevices(DeviceStart),
    EvaluateDevices(DeviceEvaluateStart),
    /// The shipped description with devices, by the evaluator and by the emulator.
    Twin(DeviceEvaluateStart),
    /// One of the two engines with devices in two calls, the first with this budget.
    Split(Box<Case>, u64),
}

/// What is different, if anything is.
pub fn difference(case: &Case, coverage: &mut Coverage) -> Option<String> {
    match case {
        Case::Emulate(start) => emulated(start, coverage),
        Case::Read(text) => read(text, coverage),
        Case::Known(text, answer) => {
            let own = independent::read(text);
            if own != *answer {
                return Some(format!("the Rust reader gives {:?}, known is {:?}", own, answer));
            }
            read(text, coverage)
        }
        Case::Constants(line) => constant_cases::read(line, coverage),
        Case::KnownConstants(known) => constant_cases::known(known, coverage),
        Case::Evaluate(start) => evaluated(start, coverage),
        Case::Shipped(start) => shipped(start, coverage),
        Case::Print(program, input) => programs::difference(program, input, coverage),
        Case::EmulateDevices(start) => device_cases::emulated(start, coverage),
        Case::EvaluateDevices(start) => device_cases::evaluated(start, coverage),
        Case::Twin(start) => device_cases::twin(start, coverage),
        Case::Split(case, first) => device_cases::split(case, *first),
    }
}

pub fn unequal<T: PartialEq + std::fmt::Debug>(what: &str, library: T, rust: T) -> Option<String> {
    if library == rust { None } else { Some(format!("{}: library {:?}, Rust {:?}", what, library, rust)) }
}

pub fn unequal_words(what: &str, library: &[u16], rust: &[u16]) -> Option<String> {
    let place = (0..library.len()).find(|i| library[*i] != rust[*i])?;
    Some(format!("{} {:04o}: library {:04o}, Rust {:04o}", what, place, library[place], rust[place]))
}

/// The first place of a row list or an output that differs.
pub fn unequal_bytes(what: &str, library: &[u8], rust: &[u8]) -> Option<String> {
    let place = (0..library.len()).find(|i| library[*i] != rust[*i])?;
    Some(format!("{}, place {} from 0: library {}, Rust {}", what, place, library[place], rust[place]))
}

fn emulated(start: &Start, coverage: &mut Coverage) -> Option<String> {
    let (mut memory, mut registers) = (start.memory.clone(), start.registers);
    let (mut own_memory, mut own_registers) = (start.memory.clone(), start.registers);
    coverage.new_run();
    let own = independent::emulate::emulate_watched(&mut own_memory, &mut own_registers, start.budget, coverage);
    match own[0] {
        0 => coverage.ending("emulate", own[1], start.budget, own[2]),
        number => coverage.refusal("emulate", number),
    }
    let library = entries::emulate(&mut memory, &mut registers, start.budget);
    if library[0] != 0 && (memory != start.memory || registers != start.registers) {
        return Some(format!("something changed at refusal {}", library[0]));
    }
    unequal("outcome", library, own)
        .or_else(|| unequal("registers", registers, own_registers))
        .or_else(|| unequal_words("memory", &memory, &own_memory))
}

fn read(text: &[u8], coverage: &mut Coverage) -> Option<String> {
    let own = independent::read(text);
    match own[0] {
        0 => coverage.count("accepted by read"),
        number => coverage.refusal("read", number),
    }
    unequal("outcome", entries::read(text), own)
}

fn evaluated(start: &EvaluateStart, coverage: &mut Coverage) -> Option<String> {
    let mut library = start.clone();
    let mut own = start.clone();
    let rust = independent::evaluate(&own.text, &mut own.memory, &mut own.registers, own.budget, &mut own.rows);
    match rust[0] {
        0 => {
            coverage.ending("evaluate", rust[1], start.budget, rust[2]);
            if let Ok(description) = independent::description::description(&start.text) {
                coverage.rows(&description, &own.rows[..rust[3] as usize]);
            }
        }
        number => coverage.refusal("evaluate", number),
    }
    let outcome = entries::evaluate(&library.text, &mut library.memory, &mut library.registers, library.budget, &mut library.rows);
    let changed = library.memory != start.memory || library.registers != start.registers || library.rows != start.rows;
    if outcome[0] != 0 && changed {
        return Some(format!("something changed at refusal {}", outcome[0]));
    }
    unequal("outcome", outcome, rust)
        .or_else(|| unequal("registers", library.registers, own.registers))
        .or_else(|| unequal_bytes("row list", &library.rows, &own.rows))
        .or_else(|| unequal_words("memory", &library.memory, &own.memory))
}

/// The evaluator beside the Rust evaluator, then both beside the Rust emulator and the library's.
fn shipped(start: &EvaluateStart, coverage: &mut Coverage) -> Option<String> {
    let mut registers = [0; 6];
    registers.copy_from_slice(&start.registers[..6]);
    let emulate = Start { memory: start.memory.clone(), registers, budget: start.budget };
    if let Some(found) = evaluated(start, coverage).or_else(|| emulated(&emulate, coverage)) {
        return Some(found);
    }
    let (mut rows, mut machine) = (start.clone(), emulate);
    let by_rows = entries::evaluate(&rows.text, &mut rows.memory, &mut rows.registers, rows.budget, &mut rows.rows);
    let by_machine = independent::emulate(&mut machine.memory, &mut machine.registers, machine.budget);
    let outcome = [by_rows[0], by_rows[1], by_rows[2]];
    unequal("evaluator and emulator, outcome", outcome, by_machine)
        .or_else(|| unequal("evaluator and emulator, registers", &rows.registers[..6], &machine.registers[..]))
        .or_else(|| unequal_words("evaluator and emulator, memory", &rows.memory, &machine.memory))
}
