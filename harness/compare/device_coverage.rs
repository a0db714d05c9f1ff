//! What has to be tried with devices, and how often it was: words, arrivals, rises, prints, interrupts, endings, refusals, descriptions that lack a register.

use crate::coverage::Coverage;
use crate::device_edges;
use crate::device_starts::WORDS;
use independent::description::description;
use independent::devices::DEVICE_REGISTERS;
use independent::evaluate_devices::places;
use independent::state::{HALTED, PAPER};
use independent::watch::Event;

/// Counts of what happens in steps.
#[derive(Clone)]
pub struct DeviceCoverage {
    /// How often each instruction word was executed with devices.
    words: Vec<u64>,
    /// How often each of EVENTS happened.
    events: [u64; 7],
}

const EVENTS: [&str; 7] = [
    "an input byte arrived",
    "the printer flag rose",
    "a byte printed",
    "an interrupt by the keyboard alone",
    "an interrupt by the printer alone",
    "an interrupt by both",
    "a step without a test left INTERRUPT.REQUEST other than the flags",
];

impl DeviceCoverage {
    pub fn new() -> DeviceCoverage {
        DeviceCoverage { words: vec![0; 4096], events: [0; 7] }
    }

    pub fn add(&mut self, other: &DeviceCoverage) {
        self.words.iter_mut().zip(&other.words).for_each(|(own, count)| *own += count);
        self.events.iter_mut().zip(&other.events).for_each(|(own, count)| *own += count);
    }

    #[inline(always)]
    pub fn saw(&mut self, event: Event) {
        let place = match event {
            Event::WithDevices(i) => return self.words[i as usize] += 1,
            Event::Arrived => 0,
            Event::Risen => 1,
            Event::Printed => 2,
            Event::InterruptedBy(true, false) => 3,
            Event::InterruptedBy(false, true) => 4,
            Event::InterruptedBy(..) => 5,
            Event::RequestStays => 6,
            _ => return,
        };
        self.events[place] += 1;
    }

    fn counts(&self) -> impl Iterator<Item = (u64, String)> + '_ {
        let words = WORDS.iter().map(|i| (self.words[*i as usize], format!("{:04o} executed with devices", i)));
        words.chain(self.events.iter().zip(EVENTS).map(|(count, name)| (*count, name.to_string())))
    }

    pub fn missing(&self) -> Vec<String> {
        self.counts().filter(|(count, _)| *count == 0).map(|(_, name)| name).collect()
    }

    pub fn print(&self) {
        self.counts().for_each(|(count, name)| println!("{:>12}  {}", count, name));
    }

    /// How many things are counted here.
    pub fn things() -> usize {
        WORDS.len() + EVENTS.len()
    }
}

/// How a run with devices ended.
fn ending([_, steps, reason, _, _, printed]: [u64; 6], budget: u64, room: usize) -> &'static str {
    let full = printed == room as u64;
    match (steps, reason) {
        (0, HALTED) if budget == 0 => "halted at once, budget 0",
        (0, HALTED) if full => "halted at once, no room",
        (0, HALTED) => "halted at once",
        (0, PAPER) if budget == 0 => "paper at once, budget 0",
        (0, PAPER) => "paper at once",
        (0, _) => "spent at once",
        (_, HALTED) if full => "halted with the output full",
        (_, HALTED) => "halted",
        (_, PAPER) if steps == budget => "paper as the budget ends",
        (_, PAPER) => "paper",
        _ => "spent",
    }
}

const ENDINGS: [&str; 10] = [
    "halted at once, budget 0",
    "halted at once, no room",
    "halted at once",
    "paper at once, budget 0",
    "paper at once",
    "spent at once",
    "halted",
    "paper as the budget ends",
    "paper",
    "spent",
];

impl Coverage {
    pub fn devices_outcome(&mut self, entry: &str, outcome: [u64; 6], budget: u64, room: usize) {
        match outcome[0] {
            0 => self.count(&format!("{} by {}", ending(outcome, budget, room), entry)),
            13 if entry == "emulate_devices" => {
                self.refusal(entry, 13);
                self.count(&format!("refusal 13 at place {} by {}", outcome[1], entry));
            }
            number => self.refusal(entry, number),
        }
    }

    /// Whether an accepted description has devices, and what it lacks.
    pub fn description_with_devices(&mut self, text: &[u8], input: usize, room: usize) {
        let description = match description(text) {
            Ok(description) => description,
            Err(_) => return,
        };
        match places(&description) {
            Some(found) if found.windows(2).all(|pair| pair[0] < pair[1]) => self.count("five registers in order"),
            Some(_) => self.count("five registers in another order"),
            None if room == 0 && input > 0 => self.count("no devices, with input and without room"),
            None => {}
        }
        for (name, width) in DEVICE_REGISTERS {
            let text = String::from_utf8_lossy(name);
            match description.registers.iter().find(|r| r.name == name) {
                None => self.count(&format!("no {}", text)),
                Some(register) if register.width != width => self.count(&format!("{} of another width", text)),
                Some(_) => {}
            }
        }
    }
}

/// Everything with devices that has to be tried at least once, what happens in steps aside.
pub fn required() -> Vec<String> {
    let mut names: Vec<String> = Vec::new();
    names.extend((11..=14).map(|number| format!("refusal {} by emulate_devices", number)));
    names.extend((0..=10).map(|place| format!("refusal 13 at place {} by emulate_devices", place)));
    names.extend((1..=8).chain(11..=15).map(|number| format!("refusal {} by evaluate_devices", number)));
    for entry in ["emulate_devices", "evaluate_devices"] {
        names.extend(ENDINGS.iter().map(|ending| format!("{} by {}", ending, entry)));
    }
    names.push("halted with the output full by evaluate_devices".to_string());
    for thing in ["five registers in order", "five registers in another order", "no devices, with input and without room"] {
        names.push(thing.to_string());
    }
    for (name, _) in DEVICE_REGISTERS {
        let text = String::from_utf8_lossy(name);
        names.extend([format!("no {}", text), format!("{} of another width", text)]);
    }
    names.extend(device_edges::edges().iter().map(|edge| format!("edge: {}", edge.name)));
    names
}
