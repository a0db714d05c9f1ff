//! The library beside another one, the baseline, whose entries have the prefix `baseline_`: both in turns in one run, on every program.

use crate::library::{first, told, OUTCOME_PLACES};
use crate::programs::{Program, DEVICE_PROGRAMS, PROGRAMS};
use crate::rates::{emulator_rate, evaluator_rate, reader_rate};
use crate::timing::best;
use crate::{entries, millions, must_agree, ratio, texts, Bench, CALL};
use rival::rows::Registers;

extern "C" {
    fn baseline_guavachisel_emulate(memory: *mut u16, words: usize, machine: *mut u16, budget: u64, outcome: *mut u64);
    fn baseline_guavachisel_read(text: *const u8, bytes: usize, outcome: *mut u64);
    fn baseline_guavachisel_evaluate(
        text: *const u8,
        bytes: usize,
        memory: *mut u16,
        words: usize,
        registers: *mut u16,
        budget: u64,
        rows: *mut u8,
        places: usize,
        outcome: *mut u64,
    );
}

fn emulate(memory: &mut [u16], registers: &mut [u16; 6], budget: u64) -> [u64; 3] {
    let mut outcome = [0; OUTCOME_PLACES];
    unsafe { baseline_guavachisel_emulate(memory.as_mut_ptr(), memory.len(), registers.as_mut_ptr(), budget, outcome.as_mut_ptr()) };
    first(outcome)
}

fn read(text: &[u8]) -> [u64; 2] {
    let mut outcome = [0; OUTCOME_PLACES];
    unsafe { baseline_guavachisel_read(text.as_ptr(), text.len(), outcome.as_mut_ptr()) };
    first(outcome)
}

fn evaluate(text: &[u8], memory: &mut [u16], registers: &mut Registers, budget: u64, rows: &mut [u8]) -> [u64; 4] {
    let mut outcome = [0; OUTCOME_PLACES];
    let (words, places) = (memory.len(), rows.len());
    unsafe {
        baseline_guavachisel_evaluate(
            text.as_ptr(),
            text.len(),
            memory.as_mut_ptr(),
            words,
            registers.as_mut_ptr(),
            budget,
            rows.as_mut_ptr(),
            places,
            outcome.as_mut_ptr(),
        )
    };
    told(outcome)
}

/// Best rates of library and baseline, emulator, then evaluator.
fn program_rates(bench: &Bench, program: &Program) -> [f64; 4] {
    let mut rates: [Vec<f64>; 4] = Default::default();
    let (emulated, evaluated) = (bench.calls(100), bench.calls(10));
    for _ in 0..bench.rounds {
        let (library, end) = emulator_rate(entries::emulate, program, emulated, CALL);
        let (baseline, other) = emulator_rate(emulate, program, emulated, CALL);
        must_agree(program.name, end == other);
        rates[0].push(library);
        rates[1].push(baseline);
        let (library, end) = evaluator_rate(entries::evaluate, &bench.description, program, evaluated, CALL);
        let (baseline, other) = evaluator_rate(evaluate, &bench.description, program, evaluated, CALL);
        must_agree(program.name, end == other);
        rates[2].push(library);
        rates[3].push(baseline);
    }
    rates.map(|all| best(&all))
}

pub fn beside_baseline(bench: &Bench) {
    let programs = PROGRAMS.iter().chain(&DEVICE_PROGRAMS);
    let all: Vec<(&str, [f64; 4])> = programs.map(|program| (program.name, program_rates(bench, program))).collect();
    for (place, what) in [(0, "emulator, million steps a second"), (2, "evaluator, million cycles a second")] {
        println!("\n| {} | library | baseline | library : baseline |\n|---|---|---|---|", what);
        for (name, r) in &all {
            println!("| {} | {} | {} | {} |", name, millions(r[place]), millions(r[place + 1]), ratio(r[place], r[place + 1]));
        }
    }
    println!("\n| reader, megabytes a second | library | baseline | library : baseline |\n|---|---|---|---|");
    for (name, text) in [("dense, 16384 bytes", texts::dense(16384)), ("padded, 16384 bytes", texts::padded(16384)), ("shipped", bench.description.clone())] {
        let mut rates: [Vec<f64>; 2] = Default::default();
        let calls = bench.calls(20_000_000 / text.len() as u64);
        for _ in 0..bench.rounds {
            rates[0].push(reader_rate(entries::read, &text, calls));
            rates[1].push(reader_rate(read, &text, calls));
        }
        let [library, baseline] = rates.map(|all| best(&all));
        println!("| {} | {:.1} | {:.1} | {} |", name, library, baseline, ratio(library, baseline));
    }
}
