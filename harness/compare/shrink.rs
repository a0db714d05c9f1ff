//! A differing case made smaller while it still differs, and printed.

use crate::cases::{difference, Case};
use crate::constant_known::KnownLine;
use crate::coverage::Coverage;
use std::panic::{catch_unwind, AssertUnwindSafe};

/// What is different; a write outside what was lent is a difference too.
pub fn check(case: &Case, coverage: &mut Coverage) -> Option<String> {
    match catch_unwind(AssertUnwindSafe(|| difference(case, coverage))) {
        Ok(found) => found,
        Err(panic) => {
            let text = panic.downcast_ref::<String>().cloned().unwrap_or_else(|| "a panic".to_string());
            Some(text)
        }
    }
}

fn differs(case: &Case) -> bool {
    check(case, &mut Coverage::new()).is_some()
}

/// The smallest budget at which it still differs; then lines dropped, then words cleared, then input and room taken away; of a line of constants, bytes cut out.
pub fn shrunk(case: &Case) -> Case {
    let mut small = case.clone();
    shrink_budget(&mut small);
    shrink_text(&mut small);
    shrink_memory(&mut small);
    shrink_bytes(&mut small, input);
    shrink_bytes(&mut small, output);
    shrink_line(&mut small);
    small
}

fn budget(case: &mut Case) -> Option<&mut u64> {
    match case {
        Case::Emulate(start) => Some(&mut start.budget),
        Case::Evaluate(start) | Case::Shipped(start) => Some(&mut start.budget),
        Case::EmulateDevices(lent) => Some(&mut lent.start.budget),
        Case::EvaluateDevices(lent) | Case::Twin(lent) => Some(&mut lent.start.budget),
        Case::Split(case, _) => budget(case),
        _ => None,
    }
}

fn shrink_budget(case: &mut Case) {
    let mut trial = case.clone();
    let most = match budget(&mut trial) {
        Some(b) => *b,
        None => return,
    };
    for fewer in 0..most.min(3000) {
        if let Some(b) = budget(&mut trial) {
            *b = fewer;
        }
        if differs(&trial) {
            *case = trial;
            return;
        }
    }
}

fn text(case: &mut Case) -> Option<&mut Vec<u8>> {
    match case {
        Case::Read(text) => Some(text),
        Case::Evaluate(start) => Some(&mut start.text),
        Case::Print(_, input) => Some(input),
        Case::EvaluateDevices(lent) => Some(&mut lent.start.text),
        Case::Split(case, _) => text(case),
        _ => None,
    }
}

/// Drops lines, a description's first aside, while the case still differs.
fn shrink_text(case: &mut Case) {
    let lines: Vec<Vec<u8>> = match text(case) {
        Some(t) => t.split_inclusive(|b| *b == b'\n').map(|line| line.to_vec()).collect(),
        None => return,
    };
    let mut kept = lines;
    let mut at = if matches!(case, Case::Print(..)) { 0 } else { 1 };
    while at < kept.len() {
        let mut fewer = kept.clone();
        fewer.remove(at);
        let mut trial = case.clone();
        if let Some(t) = text(&mut trial) {
            *t = fewer.concat();
        }
        if differs(&trial) {
            kept = fewer;
            *case = trial;
        } else {
            at += 1;
        }
    }
}

fn memory(case: &mut Case) -> Option<&mut Vec<u16>> {
    match case {
        Case::Emulate(start) => Some(&mut start.memory),
        Case::Evaluate(start) | Case::Shipped(start) => Some(&mut start.memory),
        Case::EmulateDevices(lent) => Some(&mut lent.start.memory),
        Case::EvaluateDevices(lent) | Case::Twin(lent) => Some(&mut lent.start.memory),
        Case::Split(case, _) => memory(case),
        _ => None,
    }
}

/// Clears words, in halves of what is left down to one.
fn shrink_memory(case: &mut Case) {
    let words = match memory(case) {
        Some(m) => m.len(),
        None => return,
    };
    let mut length = words / 2;
    while length > 0 {
        for start in (0..words).step_by(length) {
            let mut trial = case.clone();
            if let Some(m) = memory(&mut trial) {
                let end = (start + length).min(words);
                if m[start..end].iter().all(|w| *w == 0) {
                    continue;
                }
                m[start..end].iter_mut().for_each(|w| *w = 0);
            }
            if differs(&trial) {
                *case = trial;
            }
        }
        length /= 2;
    }
}

fn input(case: &mut Case) -> Option<&mut Vec<u8>> {
    match case {
        Case::EmulateDevices(lent) => Some(&mut lent.input),
        Case::EvaluateDevices(lent) | Case::Twin(lent) => Some(&mut lent.input),
        Case::Split(case, _) => input(case),
        _ => None,
    }
}

fn output(case: &mut Case) -> Option<&mut Vec<u8>> {
    match case {
        Case::EmulateDevices(lent) => Some(&mut lent.output),
        Case::EvaluateDevices(lent) | Case::Twin(lent) => Some(&mut lent.output),
        Case::Split(case, _) => output(case),
        _ => None,
    }
}

/// The fewest bytes, from the first on, with which it still differs.
fn shrink_bytes(case: &mut Case, bytes: fn(&mut Case) -> Option<&mut Vec<u8>>) {
    let count = bytes(case).map_or(0, |b| b.len());
    for fewer in 0..count {
        let mut trial = case.clone();
        if let Some(b) = bytes(&mut trial) {
            b.truncate(fewer);
        }
        if differs(&trial) {
            *case = trial;
            return;
        }
    }
}

/// A line of constants without so many bytes from a place on; `None` if that is past its end.
fn cut(case: &Case, place: usize, bytes: usize) -> Option<Case> {
    match case {
        Case::Constants(line) if place < line.len() => {
            let end = (place + bytes).min(line.len());
            Some(Case::Constants([&line[..place], &line[end..]].concat()))
        }
        _ => None,
    }
}

/// Cuts bytes out of a line of constants, in halves of its length down to one.
fn shrink_line(case: &mut Case) {
    let mut bytes = match case {
        Case::Constants(line) => line.len(),
        _ => return,
    };
    while bytes > 0 {
        let mut place = 0;
        while let Some(shorter) = cut(case, place, bytes) {
            if differs(&shorter) {
                *case = shorter;
            } else {
                place += bytes;
            }
        }
        bytes /= 2;
    }
}

pub fn print(case: &Case) {
    match case {
        Case::Emulate(start) => print_state(&start.memory, &start.registers, start.budget),
        Case::Read(text) | Case::Known(text, _) | Case::Print(_, text) => print_text(text),
        Case::Evaluate(start) => {
            print_text(&start.text);
            print_state(&start.memory, &start.registers, start.budget);
            println!("row list places: {}", start.rows.len());
        }
        Case::Constants(line) | Case::KnownConstants(KnownLine { line, .. }) => println!("line of {} bytes: \"{}\"", line.len(), line.escape_ascii()),
        Case::Shipped(start) => print_state(&start.memory, &start.registers, start.budget),
        Case::EmulateDevices(lent) => {
            print_state(&lent.start.memory, &lent.start.registers, lent.start.budget);
            println!("devices (decimal): {:?}", lent.devices);
            print_lines(&lent.input, &lent.output);
        }
        Case::EvaluateDevices(lent) | Case::Twin(lent) => {
            if matches!(case, Case::EvaluateDevices(_)) {
                print_text(&lent.start.text);
            }
            print_state(&lent.start.memory, &lent.start.registers, lent.start.budget);
            print_lines(&lent.input, &lent.output);
        }
        Case::Split(case, first) => {
            print(case);
            println!("the first call's budget: {}", first);
        }
    }
}

fn print_lines(input: &[u8], output: &[u8]) {
    println!("input: {:?}; room: {}", input, output.len());
}

fn print_text(text: &[u8]) {
    println!("text of {} bytes:", text.len());
    for line in text.split_inclusive(|b| *b == b'\n').take(200) {
        println!("  {}", String::from_utf8_lossy(line).escape_debug());
    }
}

fn print_state(memory: &[u16], registers: &[u16], budget: u64) {
    let octal: Vec<String> = registers.iter().map(|value| format!("{:o}", value)).collect();
    println!("registers (octal): {}", octal.join(" "));
    println!("budget: {}; memory of {} words, other than 0 (octal):", budget, memory.len());
    for (address, word) in memory.iter().enumerate().filter(|(_, word)| **word != 0).take(64) {
        println!("  {:04o} {:04o}", address, word);
    }
}
