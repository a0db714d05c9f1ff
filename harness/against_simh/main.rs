//! Runs images on SIMH's pdp8 and on the library's emulator and compares memory, L, AC, PC and INTERRUPT.ENABLE; with devices, their registers and what is printed.
//! Usage: against_simh WORK SIMH SEED IMAGES [PAL-SOURCE TAPE].. [--devices [PAL-SOURCE TAPE]..]
//! WORK is a folder for tapes, the command file and the log. All images are run in one process of SIMH, each program with devices in one of its own.

mod by_library;
mod by_simh;
mod devices;
mod end;
mod images;
#[path = "../library.rs"]
mod library;
#[path = "../compare/random.rs"]
mod random;

use by_library::{by_library, program_by_library};
use by_simh::{commands, ends, program_commands, run_simh, SETTING};
use devices::{device_image, word_image, EIGHT};
use end::{difference, End};
use images::{expectations, from_tape, pending_image, random_image, second_group, tape, Image};
use random::Random;
use std::fs;
use std::process::exit;

/// Starts of each of the eight words.
const WORD_STARTS: usize = 40;

fn images(seed: u64, count: u64, programs: &[String]) -> std::io::Result<Vec<Image>> {
    let mut all = Vec::new();
    for pair in programs.chunks(2) {
        let name = format!("program{}", all.len());
        let expected = expectations(&fs::read_to_string(&pair[0])?);
        let budgets = vec![1, 2, 3, 5, 8, 13, 21, 34, 55, 89, 1000];
        let memory = from_tape(&fs::read(&pair[1])?);
        all.push(Image { name, memory, lac: 0, pc: 0o200, switches: 0, interrupt_enable: 0, interrupt_request: 0, devices: None, budgets, expected });
    }
    for word in second_group() {
        let random = &mut Random::of_case(seed, 98, u64::from(word));
        all.extend([true, false].map(|enabled_before| pending_image(random, word, enabled_before)));
    }
    for n in 0..count {
        all.push(random_image(&mut Random::of_case(seed, 99, n), format!("random{}", n)));
    }
    for word in EIGHT {
        let random = &mut Random::of_case(seed, 100, u64::from(word));
        all.extend((0..WORD_STARTS).map(|n| word_image(random, word, n)));
    }
    for n in 0..count {
        all.push(device_image(&mut Random::of_case(seed, 101, n), format!("devices{}", n)));
    }
    Ok(all)
}

/// A word that a program should have left at its halt and has not.
fn unmet(image: &Image) -> Option<(u16, u16)> {
    if image.expected.is_empty() {
        return None;
    }
    let end = by_library(image, 10_000).0;
    image.expected.iter().copied().find(|(address, word)| end.memory[*address as usize] != *word)
}

fn main() -> std::io::Result<()> {
    let arguments: Vec<String> = std::env::args().skip(1).collect();
    if arguments.len() < 4 {
        eprintln!("usage: against_simh WORK SIMH SEED IMAGES [PAL-SOURCE TAPE].. [--devices [PAL-SOURCE TAPE]..]");
        exit(2);
    }
    let (work, simh) = (&arguments[0], &arguments[1]);
    let (seed, count) = (arguments[2].parse().unwrap_or(1), arguments[3].parse().unwrap_or(100));
    let mut programs = arguments[4..].split(|word| word == "--devices");
    let all = images(seed, count, programs.next().unwrap_or(&[]))?;
    let mut script = String::from(SETTING);
    let mut runs = Vec::new();
    for image in &all {
        fs::write(format!("{}/{}.bin", work, image.name), tape(&image.memory))?;
        for budget in &image.budgets {
            let (end, steps) = by_library(image, *budget);
            script += &commands(image, steps);
            runs.push((image, end, steps));
        }
        if let Some((address, word)) = unmet(image) {
            println!("{}: word {:04o} is not {:04o}", image.name, address, word);
            exit(1);
        }
    }
    compare(&runs, &ends(&run_simh(work, simh, &script, &[])?));
    let bytes = compare_programs(work, simh, programs.next().unwrap_or(&[]))?;
    let printed: usize = runs.iter().map(|(_, end, _)| end.printed.len()).sum();
    let steps: u64 = runs.iter().map(|(_, _, steps)| steps).sum();
    println!("simh: {} runs, {} steps, {} bytes printed, no difference", runs.len(), steps, printed + bytes);
    Ok(())
}

fn compare(runs: &[(&Image, End, u64)], simh: &[Option<End>]) {
    if simh.len() != runs.len() {
        println!("SIMH's log has {} runs instead of {}", simh.len(), runs.len());
        exit(1);
    }
    for ((image, end, steps), simh) in runs.iter().zip(simh) {
        let found = simh.as_ref().map_or(Some("SIMH printed other values than asked for".to_string()), |simh| difference(end, simh));
        if let Some(found) = found {
            let start = format!("PC {:04o} LAC {:05o} SWITCHES {:04o} devices {:?}", image.pc, image.lac, image.switches, image.devices);
            println!("{} after {} steps from {}, enable {}, request {}: {}", image.name, steps, start, image.interrupt_enable, image.interrupt_request, found);
            exit(1);
        }
    }
}

/// Programs that read every byte but 0 from the keyboard and print, by their own timing, until they halt: what they print, PC, L, AC, memory. The bytes compared.
fn compare_programs(work: &str, simh: &str, programs: &[String]) -> std::io::Result<usize> {
    let mut bytes = 0;
    let typed: Vec<u8> = (1..=255).collect();
    for pair in programs.chunks(2) {
        let input: &[u8] = if fs::read_to_string(&pair[0])?.contains("KSF") { &typed } else { &[] };
        let memory = from_tape(&fs::read(&pair[1])?);
        fs::write(format!("{}/program.bin", work), tape(&memory))?;
        let mut own = program_by_library(&memory, input);
        for printer_steps in [0, 1, 100] {
            let log = run_simh(work, simh, &program_commands("program", printer_steps), input)?;
            let simh = ends(&log).into_iter().next().flatten();
            // its devices' registers are left to its timing
            own.devices = simh.as_ref().map_or(own.devices, |end| end.devices);
            if let Some(found) = simh.map_or(Some("SIMH printed other values than asked for".to_string()), |simh| difference(&own, &simh)) {
                println!("{}, {} steps a byte in SIMH: {}", pair[0], printer_steps, found);
                exit(1);
            }
            bytes += own.printed.len();
        }
    }
    Ok(bytes)
}
