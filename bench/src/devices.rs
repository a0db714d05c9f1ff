//! The engines with devices beside those without, on the same programs and on two that speak to the teleprinter.

use crate::programs::{Program, DEVICE_PROGRAMS, PROGRAMS};
use crate::rates::{devices_rate, emulator_rate, evaluator_rate, twin_rate};
use crate::timing::best;
use crate::{entries, millions, must_agree, ratio, Bench, CALL};

/// Best rates of the emulator with devices, the one without, Rust's with devices; the evaluator with devices on its description, the one without on the plain one, Rust's with devices.
fn program_rates(bench: &Bench, program: &Program) -> [f64; 6] {
    let mut rates: [Vec<f64>; 6] = Default::default();
    let (emulated, evaluated) = (bench.calls(40), bench.calls(5));
    for _ in 0..bench.rounds {
        let (library, end) = devices_rate(entries::emulate_devices, program, emulated, CALL);
        let (rust, rust_end) = devices_rate(rival::emulate_devices, program, emulated, CALL);
        must_agree(program.name, end == rust_end);
        rates[0].push(library);
        rates[1].push(emulator_rate(entries::emulate, program, emulated, CALL).0);
        rates[2].push(rust);
        let (library, end) = twin_rate(entries::evaluate_devices, &bench.twin, program, evaluated, CALL);
        let (rust, rust_end) = twin_rate(rival::evaluate_devices, &bench.twin, program, evaluated, CALL);
        must_agree(program.name, end == rust_end);
        rates[3].push(library);
        rates[4].push(evaluator_rate(entries::evaluate, &bench.description, program, evaluated, CALL).0);
        rates[5].push(rust);
    }
    rates.map(|all| best(&all))
}

pub fn with_devices(bench: &Bench) {
    let programs = PROGRAMS.iter().chain(&DEVICE_PROGRAMS);
    let all: Vec<(&str, [f64; 6])> = programs.map(|program| (program.name, program_rates(bench, program))).collect();
    println!("\n| emulator with devices, million steps a second | library | without devices | Rust | with : without | library : Rust |\n|---|---|---|---|---|---|");
    for (name, r) in &all {
        println!("| {} | {} | {} | {} | {} | {} |", name, millions(r[0]), millions(r[1]), millions(r[2]), ratio(r[0], r[1]), ratio(r[0], r[2]));
    }
    println!("\n| evaluator with devices, million cycles a second | library | without devices | Rust | with : without | library : Rust | cycles : library's own steps |\n|---|---|---|---|---|---|---|");
    for (name, r) in &all {
        let (with_without, beside_rust) = (ratio(r[3], r[4]), ratio(r[3], r[5]));
        println!("| {} | {} | {} | {} | {} | {} | 1/{:.1} |", name, millions(r[3]), millions(r[4]), millions(r[5]), with_without, beside_rust, r[0] / r[3]);
    }
}
