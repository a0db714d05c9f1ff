//! Runs on SIMH's pdp8: its commands, and what its log says. The log has what the programs print in its place between SIMH's own lines.

use crate::end::End;
use crate::images::Image;
use std::fs;
use std::io::Write;
use std::process::{Command, Stdio};

/// Before the first run. The printer's flag rises at the start of the step after a print, as in document 02.
pub const SETTING: &str = "set cpu 4k\nset cpu noidle\nset tti 8b\nset tto 8b\ndeposit tto time 0\n";

const EXAMINE: &str = "examine pc,l,ac,ion\nexamine tti buf,done\nexamine tto done,buf\nexamine 0-7777\n";
/// Values that EXAMINE has for each run.
const VALUES: usize = 4 + 4 + 4096;

/// The commands for one run, whose tape is in the work folder.
pub fn commands(image: &Image, steps: u64) -> String {
    let (link, ac) = (image.lac >> 12, image.lac & 0o7777);
    let start = format!("deposit pc {:o}\ndeposit l {:o}\ndeposit ac {:o}\ndeposit sr {:o}\n", image.pc, link, ac, image.switches);
    let request = if image.devices.is_some() { 0 } else { image.interrupt_request };
    // ION_DELAY 0: the first instruction is executed before an interrupt is taken
    let interrupts = format!("deposit ion {}\ndeposit ion_delay 0\ndeposit pwr_int {}\n", image.interrupt_enable, request);
    let run = if steps > 0 { format!("step {}\n", steps) } else { String::new() };
    format!("load {}.bin\n{}{}{}echo run\n{}{}", image.name, start, interrupts, devices(image.devices.unwrap_or([0; 5])), run, EXAMINE)
}

fn devices([key_byte, keyboard_flag, printer_flag, print_byte, _]: [u16; 5]) -> String {
    let keyboard = format!("reset tti\ndeposit tti buf {:o}\ndeposit tti done {}\ndeposit tti int {}\n", key_byte, keyboard_flag, keyboard_flag);
    let printer = format!("reset tto\ndeposit tto buf {:o}\ndeposit tto done {}\ndeposit tto int {}\n", print_byte, printer_flag, printer_flag);
    keyboard + &printer
}

/// The commands of a program that runs until it halts, its tape in the work folder. The printer takes so many steps for a byte, the keyboard 1,000, which leaves time for it: SIMH lets a byte overtake one that is not read.
pub fn program_commands(name: &str, printer_steps: u64) -> String {
    let setting = format!("{}deposit tti time 1000\ndeposit tto time {}\nload {}.bin\ndeposit pc 200\n", SETTING, printer_steps, name);
    format!("{}echo run\nstep 50000000\n{}", setting, EXAMINE)
}

/// SIMH's log of a script, with what is typed.
pub fn run_simh(work: &str, simh: &str, script: &str, typed: &[u8]) -> std::io::Result<Vec<u8>> {
    let log = format!("{}/images.log", work);
    // SIMH would add to it
    fs::write(&log, [])?;
    fs::write(format!("{}/images.do", work), format!("set log images.log\n{}exit\n", script))?;
    let mut child = Command::new(simh).arg("images.do").current_dir(work).stdin(Stdio::piped()).stdout(Stdio::null()).spawn()?;
    if let Some(mut keyboard) = child.stdin.take() {
        keyboard.write_all(typed)?;
    }
    child.wait()?;
    fs::read(log)
}

/// The ends that a log tells of.
pub fn ends(log: &[u8]) -> Vec<Option<End>> {
    let starts: Vec<usize> = places(log, b"\nrun\n").map(|at| at + 5).collect();
    let stops = starts.iter().skip(1).map(|next| next - 5).chain([log.len()]);
    starts.iter().zip(stops).map(|(start, stop)| end(&log[*start..stop])).collect()
}

fn places<'a>(log: &'a [u8], what: &'a [u8]) -> impl Iterator<Item = usize> + 'a {
    log.windows(what.len()).enumerate().filter(move |(_, bytes)| *bytes == what).map(|(at, _)| at)
}

/// One run's part of the log: what was printed, why SIMH stopped (not of a run without steps), and the values.
fn end(log: &[u8]) -> Option<End> {
    let stopped = places(log, b"\nStep expired, PC: ").chain(places(log, b"\nHALT instruction, PC: ")).min();
    let printed = log[..stopped.unwrap_or(0)].to_vec();
    let text = String::from_utf8_lossy(&log[stopped.unwrap_or(0)..]);
    let lines = text.lines().filter_map(|line| line.split_once(":\t"));
    let values: Vec<u16> = lines.filter_map(|(_, value)| u16::from_str_radix(value.trim(), 8).ok()).collect();
    if values.len() != VALUES {
        return None;
    }
    let devices = [values[4], values[5], values[6], values[7]];
    Some(End { pc: values[0], link: values[1], ac: values[2], enable: values[3], devices, memory: values[8..].to_vec(), printed })
}
