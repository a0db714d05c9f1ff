//! The areas of the comparison, and how the cases of each are made from a seed.

use crate::cases::{Case, EvaluateStart};
use crate::constant_known::{self, KnownLine};
use crate::constant_lines;
use crate::damage::damage;
use crate::device_edges::{self, DeviceEdge};
use crate::device_starts::{self, of_twin, DeviceEvaluateStart, WORDS};
use crate::device_texts;
use crate::edges::{edges, Edge};
use crate::images;
use crate::limits::{limits, Limit};
use crate::programs::Program;
use crate::questions;
use crate::random::Random;
use crate::register_sets;
use crate::states::{spoil, State};
use crate::texts;
use independent::description::{description, Description, REGISTERS};
use independent::machine::WIDTHS;
use std::sync::Arc;

/// The number of the area `explain`'s first question of any kind, after one for each instruction word and for each unfit line.
const FIRST_QUESTION: u64 = 4096 + questions::UNFIT as u64;

/// An area's name, and how many cases of it one run tries.
pub const AREAS: [(&str, u64); 21] = [
    ("emulate", 50_000),
    ("emulate-state", 12_000),
    ("limits", 0),
    ("edges", 0),
    ("words", 4096 * 8),
    ("texts", 40_000),
    ("damaged", 60_000),
    ("damaged-limits", 12_000),
    ("evaluate-state", 20_000),
    ("shipped", 6_000),
    ("listing", 1_000),
    ("explain", FIRST_QUESTION + 3_000),
    ("devices", 30_000),
    ("devices-state", 8_000),
    ("device-edges", 0),
    ("device-words", WORDS.len() as u64 * 400),
    ("device-texts", 20_000),
    ("device-splits", 6_000),
    ("twin", 4_000),
    ("constants", 40_000),
    ("register-sets", 4_000),
];

pub struct Maker {
    pub seed: u64,
    pub shipped: Vec<u8>,
    pub listing: Arc<Program>,
    pub explain: Arc<Program>,
    pub limits: Vec<Limit>,
    pub edges: Vec<Edge>,
    pub device_edges: Vec<DeviceEdge>,
    /// Lines with known constants: the first cases of their area.
    pub known_constants: Vec<KnownLine>,
    /// The library's description with devices.
    pub twin: Vec<u8>,
    twin_read: Option<Description>,
}

impl Maker {
    /// With the two shipped descriptions and the paths of the two programs.
    pub fn new(seed: u64, shipped: Vec<u8>, twin: Vec<u8>, listing: &str, explain: &str) -> Maker {
        let program = |name, path: &str| Arc::new(Program { name, path: path.to_string(), shipped: shipped.clone(), twin: twin.clone() });
        let (listing, explain) = (program("listing", listing), program("explain", explain));
        let twin_read = description(&twin).ok();
        let (device_edges, known_constants) = (device_edges::edges(), constant_known::lines());
        Maker { seed, shipped, listing, explain, limits: limits(), edges: edges(), device_edges, known_constants, twin, twin_read }
    }

    /// Whether an area needs the description with devices, and the library's is not to be had or not accepted.
    pub fn lacks_twin(&self, area: usize) -> bool {
        ["device-edges", "device-splits", "twin"].contains(&AREAS[area].0) && self.twin_read.is_none()
    }

    /// The program that an area is about, if it is about one.
    pub fn program(&self, area: usize) -> Option<&Program> {
        match AREAS[area].0 {
            "listing" => Some(&self.listing),
            "explain" => Some(&self.explain),
            _ => None,
        }
    }

    /// How many cases an area has, at so many percent of the usual; each limit and edge is tried once.
    pub fn count(&self, area: usize, percent: u64) -> u64 {
        match AREAS[area] {
            ("limits", _) => self.limits.len() as u64,
            ("edges", _) => self.edges.len() as u64,
            ("device-edges", _) => self.device_edges.len() as u64,
            (_, cases) => cases * percent / 100,
        }
    }

    /// A limit or edge that a case is about: its name, and whether it is passed.
    pub fn limit(&self, area: usize, case: u64) -> Option<(&'static str, bool)> {
        match AREAS[area].0 {
            "limits" => Some((self.limits[case as usize].name, self.limits[case as usize].past)),
            "edges" => self.edge(area, case).map(|edge| (edge.name, edge.past)),
            _ => None,
        }
    }

    /// The edge that a case of area `edges` is.
    pub fn edge(&self, area: usize, case: u64) -> Option<&Edge> {
        if AREAS[area].0 == "edges" { self.edges.get(case as usize) } else { None }
    }

    /// The edge that a case of area `device-edges` is.
    pub fn device_edge(&self, area: usize, case: u64) -> Option<&DeviceEdge> {
        if AREAS[area].0 == "device-edges" { self.device_edges.get(case as usize) } else { None }
    }

    /// What is compared under one number.
    pub fn cases(&self, area: usize, case: u64) -> Vec<Case> {
        let mut random = Random::of_case(self.seed, area, case);
        let r = &mut random;
        match AREAS[area].0 {
            "emulate" => vec![Case::Emulate(images::start(r))],
            "emulate-state" => vec![bad_emulation(r)],
            "limits" => {
                let limit = &self.limits[case as usize];
                let start = with_state(r, limit.text.clone());
                let with_devices = DeviceEvaluateStart { start: start.clone(), input: vec![9], output: vec![7; 3] };
                vec![Case::Known(limit.text.clone(), limit.answer), Case::Evaluate(start), Case::EvaluateDevices(with_devices)]
            }
            "edges" => vec![self.edges[case as usize].case.clone()],
            "words" => vec![Case::Emulate(images::one_word(r, (case % 4096) as u16))],
            "texts" => {
                let text = texts::text(r).0;
                both(r, text)
            }
            "damaged" => {
                let mut text = texts::text(r).0;
                damage(r, &mut text);
                both(r, text)
            }
            "damaged-limits" => {
                let mut text = r.pick(&self.limits).text.clone();
                damage(r, &mut text);
                both(r, text)
            }
            "evaluate-state" => {
                let text = if r.once_in(10) { r.pick(&self.limits).text.clone() } else { texts::text(r).0 };
                vec![bad_evaluation(r, text)]
            }
            "shipped" => vec![Case::Shipped(shipped(r, &self.shipped))],
            "listing" => vec![Case::Print(self.listing.clone(), questions::image(r))],
            "explain" if case < 4096 => vec![Case::Print(self.explain.clone(), questions::one_word(r, case as u16))],
            "explain" if case < FIRST_QUESTION => vec![Case::Print(self.explain.clone(), questions::unfit_question(r, case as usize - 4096))],
            "explain" => vec![Case::Print(self.explain.clone(), questions::question(r))],
            "devices" => vec![Case::EmulateDevices(device_starts::start(r))],
            "devices-state" => vec![Case::EmulateDevices(device_starts::spoiled(r))],
            "device-edges" => self.by_both(self.device_edges[case as usize].case.clone()),
            "device-words" => vec![Case::EmulateDevices(device_starts::one_word(r, WORDS[case as usize % WORDS.len()]))],
            "device-texts" => {
                let start = self.device_text(r);
                vec![Case::Evaluate(start.start.clone()), Case::EvaluateDevices(start)]
            }
            "device-splits" => vec![self.split(r)],
            "twin" => vec![Case::Twin(self.twin_start(r))],
            "constants" => vec![match self.known_constants.get(case as usize) {
                Some(known) => Case::KnownConstants(known.clone()),
                None => Case::Constants(constant_lines::line(r)),
            }],
            "register-sets" => {
                let text = register_sets::text(r);
                both(r, text)
            }
            name => unreachable!("no area {}", name),
        }
    }

    /// A description that speaks of the devices' registers, now and then spoiled or with a spoiled state, or one that reaches a limit.
    fn device_text(&self, random: &mut Random) -> DeviceEvaluateStart {
        let mut text = if random.once_in(40) { random.pick(&self.limits).text.clone() } else { device_texts::text(random) };
        if random.once_in(12) {
            damage(random, &mut text);
        }
        let mut start = with_state(random, text);
        start.budget = start.budget.min(1_000);
        if random.once_in(12) {
            spoil_evaluation(random, &mut start);
        }
        DeviceEvaluateStart { start, input: device_starts::input(random), output: device_starts::output(random) }
    }

    /// A run in two calls: by the emulator, by the description with devices, or by any description.
    fn split(&self, random: &mut Random) -> Case {
        let case = match random.below(3) {
            0 => Case::EvaluateDevices(self.twin_start(random)),
            1 => Case::EvaluateDevices(self.device_text(random)),
            _ => Case::EmulateDevices(device_starts::start(random)),
        };
        Case::Split(Box::new(case), device_starts::first_budget(random))
    }

    /// A case of the emulator with devices, and the same of the description with devices.
    fn by_both(&self, case: Case) -> Vec<Case> {
        match (&case, &self.twin_read) {
            (Case::EmulateDevices(machine), Some(twin)) => {
                let rows = EvaluateStart { text: self.twin.clone(), memory: Vec::new(), registers: [0; REGISTERS], budget: 0, rows: vec![9; 128] };
                let same = Case::Twin(of_twin(machine, twin, rows));
                vec![case, same]
            }
            _ => vec![case],
        }
    }

    /// The description with devices on a random image, its working registers holding anything that fits.
    fn twin_start(&self, random: &mut Random) -> DeviceEvaluateStart {
        let mut machine = device_starts::start(random);
        machine.start.budget = machine.start.budget.min(2_000);
        let start = with_state(random, self.twin.clone());
        match &self.twin_read {
            Some(twin) => of_twin(&machine, twin, start),
            None => DeviceEvaluateStart { start, input: machine.input, output: machine.output },
        }
    }
}

fn bad_emulation(random: &mut Random) -> Case {
    let mut start = images::Start { memory: vec![random.bits(12); 4096], registers: images::machine(random), budget: 5 };
    start.memory[random.below(4096)] = random.bits(12);
    let mut state = State { memory: &mut start.memory, registers: &mut start.registers, widths: &WIDTHS, budget: &mut start.budget, rows: None };
    spoil(random, &mut state);
    Case::Emulate(start)
}

/// The reader's answer, and the evaluator's from a fitting state.
fn both(random: &mut Random, text: Vec<u8>) -> Vec<Case> {
    let evaluate = with_state(random, text.clone());
    vec![Case::Read(text), Case::Evaluate(evaluate)]
}

/// Register widths of a text that is accepted; none of one that is not.
fn widths(text: &[u8]) -> Vec<u8> {
    description(text).map_or(Vec::new(), |d| d.registers.iter().map(|r| r.width).collect())
}

/// A fitting state, RUN being 1 nearly always.
fn with_state(random: &mut Random, text: Vec<u8>) -> EvaluateStart {
    let mut registers = [0; REGISTERS];
    if let Ok(d) = description(&text) {
        for (place, register) in d.registers.iter().enumerate() {
            registers[place] = random.bits(register.width);
        }
        registers[d.run] = u16::from(!random.once_in(16));
    }
    let filler = random.bits(12);
    let memory = (0..4096).map(|n| (n * 37 + filler) & 0o7777).collect();
    let budget = if random.once_in(3000) { 100_000 } else { *random.pick(&[0, 1, 1, 1, 2, 3, 5, 10, 30]) };
    let places = *random.pick(&[128, 128, 129, 200, 256]);
    let rows = (0..places).map(|_| random.bits(8) as u8).collect();
    EvaluateStart { text, memory, registers, budget, rows }
}

fn bad_evaluation(random: &mut Random, mut text: Vec<u8>) -> Case {
    if random.once_in(8) {
        damage(random, &mut text);
    }
    let mut start = with_state(random, text);
    spoil_evaluation(random, &mut start);
    Case::Evaluate(start)
}

fn spoil_evaluation(random: &mut Random, start: &mut EvaluateStart) {
    let widths = widths(&start.text);
    let mut state =
        State { memory: &mut start.memory, registers: &mut start.registers, widths: &widths, budget: &mut start.budget, rows: Some(&mut start.rows) };
    spoil(random, &mut state);
}

/// The shipped description on a random image, its working registers holding anything that fits.
fn shipped(random: &mut Random, text: &[u8]) -> EvaluateStart {
    let image = images::start(random);
    let mut start = with_state(random, text.to_vec());
    start.memory = image.memory;
    start.registers[..6].copy_from_slice(&image.registers);
    start.budget = if random.once_in(3000) { 1_000_000 } else { image.budget.min(2_000) };
    start
}
