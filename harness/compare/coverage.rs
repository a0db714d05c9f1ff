//! How often each thing that has to be tried was tried: instruction words, refusals, operators, destinations, limits, constants.

use crate::constant_coverage::ConstantCoverage;
use crate::device_coverage::{self, DeviceCoverage};
use crate::{edges, limits};
use independent::description::{Description, Row, REGISTERS};
use independent::expression::{Binary, Destination, Expression, Kind};
use independent::watch::{Event, Watch};
use std::collections::BTreeMap;

pub struct Coverage {
    counts: BTreeMap<String, u64>,
    /// How often each instruction word was executed.
    words: Vec<u64>,
    /// How often each was the last one of an explanation.
    explained: Vec<u64>,
    /// Addresses that the run stored to.
    stored: Vec<bool>,
    /// The address that the last store went to, if no step began after it.
    just_stored: Option<u16>,
    /// How often each of EVENTS happened.
    events: [u64; 9],
    /// How often the register at each place was read by a row that acted, and how often it took a value.
    read: [u64; REGISTERS],
    taken: [u64; REGISTERS],
    /// What happened with devices.
    devices: DeviceCoverage,
    /// What was read of constants.
    pub constants: ConstantCoverage,
}

/// Places in EVENTS.
const OWN_PAGE_END: usize = 0;
const POINTER_INCREASED: usize = 1;
const REWRITTEN: usize = 2;
const SKIP: usize = 3;
const INTERRUPT: usize = 4;
const LAST_WORD: usize = 5;
const BESIDE_POINTERS: usize = 6;
const JUST_REWRITTEN: usize = 7;
const HALT_PENDING: usize = 8;

const EVENTS: [&str; 9] = [
    "a page taken from the last word of a page",
    "a pointer increased",
    "a word rewritten by the run executed",
    "a skip",
    "an interrupt",
    "PC from 7777 to 0000",
    "an indirect 0007 or 0020",
    "a word rewritten by the step before executed",
    "a halt with an interrupt pending",
];

impl Coverage {
    pub fn new() -> Coverage {
        Coverage {
            counts: BTreeMap::new(),
            words: vec![0; 4096],
            explained: vec![0; 4096],
            stored: vec![false; 4096],
            just_stored: None,
            events: [0; 9],
            read: [0; REGISTERS],
            taken: [0; REGISTERS],
            devices: DeviceCoverage::new(),
            constants: ConstantCoverage::new(),
        }
    }

    pub fn count(&mut self, name: &str) {
        match self.counts.get_mut(name) {
            Some(count) => *count += 1,
            None => {
                self.counts.insert(name.to_string(), 1);
            }
        }
    }

    /// What another has counted.
    pub fn add(&mut self, other: &Coverage) {
        for (name, count) in &other.counts {
            *self.counts.entry(name.clone()).or_insert(0) += count;
        }
        self.words.iter_mut().zip(&other.words).for_each(|(own, count)| *own += count);
        self.explained.iter_mut().zip(&other.explained).for_each(|(own, count)| *own += count);
        self.events.iter_mut().zip(&other.events).for_each(|(own, count)| *own += count);
        self.read.iter_mut().zip(&other.read).for_each(|(own, count)| *own += count);
        self.taken.iter_mut().zip(&other.taken).for_each(|(own, count)| *own += count);
        self.devices.add(&other.devices);
        self.constants.add(&other.constants);
    }

    /// Before each run, so that rewritten words are told from the others.
    pub fn new_run(&mut self) {
        self.stored.iter_mut().for_each(|s| *s = false);
        self.just_stored = None;
    }

    pub fn refusal(&mut self, entry: &str, number: u64) {
        self.count(&format!("refusal {} by {}", number, entry));
    }

    pub fn ending(&mut self, entry: &str, steps: u64, budget: u64, reason: u64) {
        let name = match (steps, reason) {
            (0, 1) if budget == 0 => "halted at once, budget 0",
            (0, 1) => "halted at once",
            (0, _) => "spent at once",
            (_, 1) => "halted",
            _ => "spent",
        };
        self.count(&format!("{} by {}", name, entry));
    }

    /// What a program printed.
    pub fn printed(&mut self, program: &str, text: &str) {
        let fields: Vec<Vec<&str>> = text.lines().map(|line| line.split('\t').collect()).collect();
        let lines = |word: &str| fields.iter().filter(|line| line[0] == word).count();
        if lines("refused") > 0 {
            return self.count(&format!("refused by {}", program));
        }
        if let Some(end) = fields.iter().find(|line| line[0] == "end") {
            self.count(&format!("{} by {}", if end[1] == "0" { "no step" } else { end[2] }, program));
        }
        if program == "explain" {
            self.count(&format!("{} words changed by the last step", lines("word").min(3)));
        }
        if let Some(last) = fields.iter().find(|line| line[0] == "last") {
            self.explained[usize::from_str_radix(last[2], 8).unwrap_or(0)] += 1;
        }
    }

    /// What the rows that acted hold.
    pub fn rows(&mut self, description: &Description, acted: &[u8]) {
        for number in acted {
            match &description.rows[*number as usize - 1] {
                Row::Go { condition, .. } => {
                    self.count("a go acted");
                    self.expression(condition);
                }
                Row::Do { condition, destination, expression } => {
                    self.expression(condition);
                    self.expression(expression);
                    match destination {
                        Destination::Word(address) => {
                            self.count("a memory destination");
                            self.expression(address);
                        }
                        Destination::Part(part) => {
                            self.taken[part.register] += 1;
                            self.count(if part.whole { "a register destination" } else { "a bit part destination" });
                        }
                    }
                }
            }
        }
        if acted.len() < description.rows.len() {
            self.count("a row that did not act");
        }
    }

    fn expression(&mut self, expression: &Expression) {
        match &expression.kind {
            Kind::Part(part) => {
                self.read[part.register] += 1;
                self.count(if part.whole { "a register" } else { "a bit part" });
            }
            Kind::Constant(_) => self.count("a constant"),
            Kind::Word(address) => {
                self.count("a memory word");
                self.expression(address);
            }
            Kind::Not(of) => {
                self.count("operator Not");
                self.expression(of);
            }
            Kind::Rotate { left, of, count } => {
                self.count(if *left { "operator Slr" } else { "operator Srr" });
                if *count >= of.width {
                    self.count("a rotation of more places than bits");
                }
                self.expression(of);
            }
            Kind::Two(operator, left, right) => {
                self.count(operator_name(*operator));
                if *operator == Binary::Or && one_bit_apart(left, right) {
                    self.count("an Or of constants that differ in one bit");
                }
                self.expression(left);
                self.expression(right);
            }
        }
    }

    /// What was never tried.
    pub fn missing(&self) -> Vec<String> {
        let mut missing: Vec<String> = required().into_iter().filter(|name| !self.counts.contains_key(name)).collect();
        missing.extend((0..4096).filter(|i| self.words[*i] == 0).map(|i| format!("instruction {:04o}", i)));
        missing.extend((0..4096).filter(|i| self.explained[*i] == 0).map(|i| format!("instruction {:04o} explained", i)));
        missing.extend((0..EVENTS.len()).filter(|i| self.events[*i] == 0).map(|i| EVENTS[i].to_string()));
        missing.extend((0..REGISTERS).filter(|place| self.read[*place] == 0).map(|place| format!("the register at place {} read", place)));
        missing.extend((0..REGISTERS).filter(|place| self.taken[*place] == 0).map(|place| format!("the register at place {} stored to", place)));
        missing.extend(self.devices.missing());
        missing.extend(self.constants.missing());
        missing
    }

    pub fn print(&self) {
        for (name, count) in &self.counts {
            println!("{:>12}  {}", count, name);
        }
        for (count, name) in self.events.iter().zip(EVENTS) {
            println!("{:>12}  {}", count, name);
        }
        let least = |counts: &[u64]| counts.iter().min().copied().unwrap_or(0);
        println!("{:>12}  reads of each register place, at least; each stored to at least {} times", least(&self.read), least(&self.taken));
        self.devices.print();
        self.constants.print();
        for op in 0..8 {
            let of_op = &self.words[op * 512..(op + 1) * 512];
            println!("{:>12}  steps of op {}, each of its 512 words at least {} times", of_op.iter().sum::<u64>(), op, of_op.iter().min().unwrap_or(&0));
        }
    }

    /// The things to be tried, and how many steps were watched.
    pub fn totals(&self) -> (usize, u64) {
        let things = required().len() + 2 * 4096 + EVENTS.len() + 2 * REGISTERS + DeviceCoverage::things() + ConstantCoverage::things();
        (things, self.words.iter().sum())
    }
}

/// Whether two expressions compare the same with constants that differ in one bit.
fn one_bit_apart(left: &Expression, right: &Expression) -> bool {
    match (&left.kind, &right.kind) {
        (Kind::Two(Binary::Eql, a, one), Kind::Two(Binary::Eql, b, other)) => match (&one.kind, &other.kind) {
            (Kind::Constant(one), Kind::Constant(other)) => a == b && (one ^ other).count_ones() == 1,
            _ => false,
        },
        _ => false,
    }
}

fn operator_name(operator: Binary) -> &'static str {
    match operator {
        Binary::Join => "operator @",
        Binary::Add => "operator +",
        Binary::Eql => "operator Eql",
        Binary::Neq => "operator Neq",
        Binary::Lss => "operator Lss",
        Binary::And => "operator And",
        Binary::Or => "operator Or",
    }
}

/// Everything that has to be tried at least once, the instruction words and events aside.
fn required() -> Vec<String> {
    let mut names: Vec<String> = Vec::new();
    for number in 1..=8 {
        names.push(format!("refusal {} by read", number));
        names.push(format!("refusal {} by evaluate", number));
    }
    for number in 11..=14 {
        names.push(format!("refusal {} by emulate", number));
    }
    for number in 11..=15 {
        names.push(format!("refusal {} by evaluate", number));
    }
    for entry in ["emulate", "evaluate"] {
        for ending in ["halted at once, budget 0", "halted at once", "spent at once", "halted", "spent"] {
            names.push(format!("{} by {}", ending, entry));
        }
    }
    for ending in ["refused by listing", "halted by listing", "spent by listing"] {
        names.push(ending.to_string());
    }
    for ending in ["refused by explain", "no step by explain", "halted by explain", "spent by explain"] {
        names.push(ending.to_string());
    }
    for words in ["0", "1", "2", "3"] {
        names.push(format!("{} words changed by the last step", words));
    }
    for operator in ["Not", "@", "Slr", "Srr", "+", "Eql", "Neq", "Lss", "And", "Or"] {
        names.push(format!("operator {}", operator));
    }
    for thing in ["a go acted", "a row that did not act", "a memory destination", "a register destination", "a bit part destination"] {
        names.push(thing.to_string());
    }
    for thing in ["a register", "a bit part", "a constant", "a memory word", "a rotation of more places than bits", "an Or of constants that differ in one bit", "accepted by read"] {
        names.push(thing.to_string());
    }
    for limit in limits::NAMES.iter().chain(&edges::NAMES) {
        names.push(format!("one past: {}", limit));
        if *limit != "order of refusals" {
            names.push(format!("exactly: {}", limit));
        }
    }
    names.extend(device_coverage::required());
    names
}

impl Watch for Coverage {
    #[inline(always)]
    fn saw(&mut self, event: Event) {
        match event {
            Event::Fetched(pc, i) => {
                self.words[i as usize] += 1;
                self.events[REWRITTEN] += u64::from(self.stored[pc as usize]);
                self.events[JUST_REWRITTEN] += u64::from(self.just_stored.take() == Some(pc));
                self.events[LAST_WORD] += u64::from(pc == 0o7777);
                let first = i & 0o177;
                self.events[BESIDE_POINTERS] += u64::from(i < 0o6000 && i & 0o600 == 0o400 && (first == 0o7 || first == 0o20));
            }
            Event::PageEnd => self.events[OWN_PAGE_END] += 1,
            Event::AutoIndexed(_) => self.events[POINTER_INCREASED] += 1,
            Event::Stored(address) => {
                self.stored[address as usize] = true;
                self.just_stored = Some(address);
            }
            Event::Skipped => self.events[SKIP] += 1,
            Event::Interrupted => self.events[INTERRUPT] += 1,
            Event::HaltedPending => self.events[HALT_PENDING] += 1,
            _ => self.devices.saw(event),
        }
    }
}
