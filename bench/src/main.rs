//! The library's speed beside SIMH's pdp8 and the rival in Rust (bench/rival), all sides in turns in one run, as Markdown tables.
//! Usage: bench WORK DESCRIPTION ROUNDS PERCENT (WORK: a folder for SIMH's command file; PERCENT: how much of the full work each turn does)

#[cfg(baseline)]
mod baseline;
mod devices;
mod entries;
#[path = "../../harness/library.rs"]
mod library;
mod programs;
mod rates;
mod simh;
mod texts;
mod timing;

use programs::{Program, PROGRAMS};
use rates::{emulator_rate, evaluator_rate, reader_rate};
use simh::Simh;
use std::process::exit;
use timing::best;

/// The most steps or cycles that one call makes.
const CALL: u64 = 1_000_000;

pub struct Bench {
    simh: Option<Simh>,
    description: Vec<u8>,
    /// The description with devices.
    twin: Vec<u8>,
    rounds: usize,
    percent: u64,
}

impl Bench {
    fn calls(&self, full: u64) -> u64 {
        (full * self.percent / 100).max(1)
    }
}

fn must_agree(what: &str, same: bool) {
    if !same {
        println!("{}: the sides end differently", what);
        exit(1);
    }
}

/// One program on every side, in turns: best rates of library, SIMH and Rust emulator, library and Rust evaluator.
fn program_rates(bench: &Bench, program: &Program) -> [f64; 5] {
    let mut rates: [Vec<f64>; 5] = Default::default();
    let (emulated, evaluated) = (bench.calls(100), bench.calls(5));
    for _ in 0..bench.rounds {
        let (library, end) = emulator_rate(entries::emulate, program, emulated, CALL);
        let (rust, rust_end) = emulator_rate(rival::emulate, program, emulated, CALL);
        must_agree(program.name, end == rust_end);
        rates[0].push(library);
        rates[2].push(rust);
        if let Some(simh) = &bench.simh {
            if let Some((rate, simh_end)) = simh.rate(program, emulated * CALL) {
                must_agree(program.name, simh_end == [end[1], end[0] >> 12, end[0] & 0o7777]);
                rates[1].push(rate);
            }
        }
        let (library, end) = evaluator_rate(entries::evaluate, &bench.description, program, evaluated, CALL);
        let (rust, rust_end) = evaluator_rate(rival::evaluate, &bench.description, program, evaluated, CALL);
        must_agree(program.name, end == rust_end);
        rates[3].push(library);
        rates[4].push(rust);
    }
    [best(&rates[0]), best(&rates[1]), best(&rates[2]), best(&rates[3]), best(&rates[4])]
}

fn millions(rate: f64) -> String {
    if rate.is_nan() { "–".to_string() } else { format!("{:.1}", rate / 1e6) }
}

fn ratio(a: f64, b: f64) -> String {
    let r = a / b;
    if r.is_nan() { "–".to_string() } else { format!("{:.2}", r) }
}

fn engines(bench: &Bench) {
    let all: Vec<(&str, [f64; 5])> = PROGRAMS.iter().map(|program| (program.name, program_rates(bench, program))).collect();
    println!("\n| emulator, million steps a second | library | SIMH | Rust | library : SIMH | library : Rust |\n|---|---|---|---|---|---|");
    for (name, r) in &all {
        println!("| {} | {} | {} | {} | {} | {} |", name, millions(r[0]), millions(r[1]), millions(r[2]), ratio(r[0], r[1]), ratio(r[0], r[2]));
    }
    println!("\n| evaluator, million cycles a second | library | Rust | library : Rust | cycles : library's own steps |\n|---|---|---|---|---|");
    for (name, r) in &all {
        println!("| {} | {} | {} | {} | 1/{:.1} |", name, millions(r[3]), millions(r[4]), ratio(r[3], r[4]), r[0] / r[3]);
    }
}

fn reader(bench: &Bench) {
    let dense = |bytes: usize| (format!("dense, {} bytes", bytes), texts::dense(bytes));
    let padded = |bytes: usize| (format!("padded, {} bytes", bytes), texts::padded(bytes));
    let shipped = (format!("shipped, {} bytes", bench.description.len()), bench.description.clone());
    println!("\n| reader, megabytes a second | library | Rust | library : Rust | microseconds a text |\n|---|---|---|---|---|");
    for (name, text) in [dense(4096), dense(8192), dense(16384), padded(4096), padded(16384), shipped] {
        let mut rates: [Vec<f64>; 2] = Default::default();
        let calls = bench.calls(20_000_000 / text.len() as u64);
        for _ in 0..bench.rounds {
            rates[0].push(reader_rate(entries::read, &text, calls));
            rates[1].push(reader_rate(rival::read, &text, calls));
        }
        let (library, rust) = (best(&rates[0]), best(&rates[1]));
        println!("| {} | {:.1} | {:.1} | {} | {:.1} |", name, library, rust, ratio(library, rust), text.len() as f64 / library);
    }
}

/// Microseconds a call for three budgets, the call's own cost included, and for a budget of 1.
fn growth(bench: &Bench) {
    let program = &PROGRAMS[1];
    println!("\n| library, {} | budget 1 | 10,000 | 100,000 | 1,000,000 |\n|---|---|---|---|---|", program.name);
    let mut lines = [String::from("| emulate, microseconds a call |"), String::from("| evaluate, microseconds a call |")];
    for budget in [1, 10_000, 100_000, 1_000_000] {
        let mut rates: [Vec<f64>; 2] = Default::default();
        let calls = if budget == 1 { bench.calls(20_000) } else { bench.calls(4_000_000 / budget) };
        for _ in 0..bench.rounds {
            rates[0].push(emulator_rate(entries::emulate, program, calls, budget).0);
            rates[1].push(evaluator_rate(entries::evaluate, &bench.description, program, calls, budget).0);
        }
        for (line, rate) in lines.iter_mut().zip(&rates) {
            line.push_str(&format!(" {:.1} |", budget as f64 / best(rate) * 1e6));
        }
    }
    println!("{}\n{}", lines[0], lines[1]);
}

fn machine() -> String {
    let text = std::fs::read_to_string("/proc/cpuinfo").unwrap_or_default();
    let model = text.lines().find_map(|line| line.strip_prefix("model name")).map_or("unknown processor", |m| m.trim_start_matches([' ', '\t', ':']));
    format!("{}, {} cores", model, text.matches("processor\t").count())
}

fn main() {
    let words: Vec<String> = std::env::args().skip(1).collect();
    if words.len() != 4 {
        eprintln!("usage: bench WORK DESCRIPTION ROUNDS PERCENT");
        exit(2);
    }
    let description = std::fs::read(&words[1]).unwrap_or_default();
    let (rounds, percent) = (words[2].parse().unwrap_or(5), words[3].parse().unwrap_or(100));
    let bench = Bench { simh: Simh::new(&words[0]), description, twin: library::shipped(1), rounds, percent };
    println!("Machine: {}. Best of {} rounds, all sides in turns in one run, by processor time.", machine(), bench.rounds);
    #[cfg(baseline)]
    return baseline::beside_baseline(&bench);
    #[cfg(not(baseline))]
    tables(&bench);
}

#[cfg_attr(baseline, allow(dead_code))]
fn tables(bench: &Bench) {
    engines(bench);
    devices::with_devices(bench);
    reader(bench);
    growth(bench);
    if bench.simh.is_none() {
        println!("\nNot measured: SIMH, which is not installed. Its column is empty.");
    }
}
