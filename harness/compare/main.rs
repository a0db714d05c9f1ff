//! Compares the C entries of the library that this program is linked with, and the programs listing and explain, with the
//! independent Rust implementation.
//! Usage: compare DESCRIPTION LISTING EXPLAIN SEED [--coverage] [--scale PERCENT] [--only AREA[,AREA..] [CASE]]
//! Ends with status 1 at the first difference, where a program is not there, and if anything that has to be tried was not.

mod areas;
mod cases;
mod constant_cases;
mod constant_coverage;
mod constant_known;
mod constant_lines;
mod coverage;
mod damage;
mod device_cases;
mod device_coverage;
mod device_edges;
mod device_entries;
mod device_starts;
mod device_texts;
mod edges;
mod entries;
mod expressions;
mod images;
#[path = "../library.rs"]
mod library;
mod limits;
mod programs;
mod questions;
mod random;
mod register_sets;
mod shrink;
mod states;
mod texts;

use areas::{Maker, AREAS};
use coverage::Coverage;
use std::ops::Range;
use std::process::exit;
use std::sync::Mutex;

/// Held by the one run that reports a difference.
static REPORT: Mutex<()> = Mutex::new(());

struct Options {
    description: String,
    listing: String,
    explain: String,
    seed: u64,
    coverage: bool,
    scale: u64,
    areas: Option<Vec<String>>,
    case: Option<u64>,
}

fn options() -> Option<Options> {
    let mut words = std::env::args().skip(1);
    let mut options = Options {
        description: words.next()?,
        listing: words.next()?,
        explain: words.next()?,
        seed: words.next()?.parse().ok()?,
        coverage: false,
        scale: 100,
        areas: None,
        case: None,
    };
    while let Some(word) = words.next() {
        match word.as_str() {
            "--coverage" => options.coverage = true,
            "--scale" => options.scale = words.next()?.parse().ok()?,
            "--only" => {
                options.areas = Some(words.next()?.split(',').map(str::to_string).collect());
                options.case = words.next().map(|c| c.parse().unwrap_or(0));
            }
            _ => return None,
        }
    }
    Some(options)
}

/// Prints a difference, with what makes it again, and ends.
fn fail(area: &str, seed: u64, case: u64, found: &str) -> ! {
    println!("different in area {}, seed {}, case {}: {}", area, seed, case, found);
    println!("again: harness/run LIBRARY {} {} {}", seed, area, case);
    exit(1)
}

/// The cases of an area, in as many runs beside each other as there are processors; what each has tried is added up.
fn compare_area(maker: &Maker, area: usize, range: Range<u64>, coverage: &mut Coverage) -> u64 {
    let workers = std::thread::available_parallelism().map_or(1, |n| n.get() as u64);
    let share = (range.end - range.start) / workers + 1;
    let mut compared = 0;
    std::thread::scope(|scope| {
        let runs: Vec<_> = (0..workers)
            .map(|k| (range.start + k * share).min(range.end)..(range.start + (k + 1) * share).min(range.end))
            .map(|run| scope.spawn(move || compare_cases(maker, area, run)))
            .collect();
        for run in runs {
            let (count, tried) = run.join().unwrap();
            compared += count;
            coverage.add(&tried);
        }
    });
    compared
}

fn compare_cases(maker: &Maker, area: usize, range: Range<u64>) -> (u64, Coverage) {
    let mut coverage = Coverage::new();
    let mut compared = 0;
    for number in range {
        if let Some((name, past)) = maker.limit(area, number) {
            coverage.count(&format!("{}: {}", if past { "one past" } else { "exactly" }, name));
        }
        if let Some(found) = maker.edge(area, number).and_then(edges::unmet) {
            let _alone = REPORT.lock();
            fail(AREAS[area].0, maker.seed, number, &found);
        }
        if let Some(edge) = maker.device_edge(area, number) {
            coverage.count(&format!("edge: {}", edge.name));
            if let Some(found) = device_edges::unmet(edge) {
                let _alone = REPORT.lock();
                fail(AREAS[area].0, maker.seed, number, &found);
            }
        }
        for case in maker.cases(area, number) {
            compared += 1;
            if let Some(found) = shrink::check(&case, &mut coverage) {
                let _alone = REPORT.lock();
                let small = shrink::shrunk(&case);
                println!("a smaller case of it:");
                shrink::print(&small);
                if let Some(smaller) = shrink::check(&small, &mut coverage) {
                    println!("{}", smaller);
                }
                fail(AREAS[area].0, maker.seed, number, &found);
            }
        }
    }
    (compared, coverage)
}

fn main() {
    let options = options().unwrap_or_else(|| {
        eprintln!("usage: compare DESCRIPTION LISTING EXPLAIN SEED [--coverage] [--scale PERCENT] [--only AREA[,AREA..] [CASE]]");
        exit(2)
    });
    let shipped = std::fs::read(&options.description).unwrap_or_else(|error| {
        eprintln!("{}: {}", options.description, error);
        exit(2)
    });
    std::panic::set_hook(Box::new(|_| {}));
    let maker = Maker::new(options.seed, shipped, library::shipped(1), &options.listing, &options.explain);
    let mut coverage = Coverage::new();
    let mut counts = Vec::new();
    for area in wanted(&maker, &options) {
        let range = options.case.map_or(0..maker.count(area, options.scale), |case| case..case + 1);
        counts.push(format!("{} {}", AREAS[area].0, compare_area(&maker, area, range, &mut coverage)));
    }
    finish(&options, &coverage, &counts);
}

/// The areas that are asked for, all if none is named. An area that there is not, or whose program is not built, ends the run.
fn wanted(maker: &Maker, options: &Options) -> Vec<usize> {
    let named = |name: &str| options.areas.as_ref().map_or(true, |areas| areas.iter().any(|area| area == name));
    if let Some(unknown) = options.areas.iter().flatten().find(|area| !AREAS.iter().any(|(name, _)| name == area)) {
        println!("there is no area {}", unknown);
        exit(2);
    }
    let areas: Vec<usize> = (0..AREAS.len()).filter(|area| named(AREAS[*area].0)).collect();
    if let Some(program) = areas.iter().filter_map(|area| maker.program(*area)).find(|program| !program.is_built()) {
        println!("not compared: {} is not built", program.path);
        exit(1);
    }
    if areas.iter().any(|area| maker.lacks_twin(*area)) {
        println!("not compared: the library's description with devices is not accepted, or there is none");
        exit(1);
    }
    areas
}

/// The line of counts; status 1 if anything was never tried, unless only a part was asked for.
fn finish(options: &Options, coverage: &Coverage, counts: &[String]) {
    if options.coverage {
        coverage.print();
    }
    let (things, steps) = coverage.totals();
    if options.areas.is_some() {
        println!("no difference: {}; seed {}", counts.join(", "), options.seed);
        return;
    }
    let missing = coverage.missing();
    if !missing.is_empty() {
        println!("never tried, with seed {}: {}", options.seed, missing.join("; "));
        exit(1);
    }
    println!("no difference: {}; {} steps watched, all of {} things tried; seed {}", counts.join(", "), steps, things, options.seed);
}
