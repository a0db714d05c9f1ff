//! States that reach each limit of a state exactly, and states one past it, for both engines, each with its answer.

use crate::cases::{Case, EvaluateStart};
use crate::images::Start;
use independent::description::REGISTERS;
use independent::machine::WIDTHS;

pub struct Edge {
    pub name: &'static str,
    pub past: bool,
    pub case: Case,
    /// Refusal and place; 0 and 0 if there is none.
    pub answer: [u64; 2],
}

/// Every limit that has to be reached and passed.
pub const NAMES: [&str; 6] = ["memory length", "word", "register value", "unused place", "budget", "row list"];

/// So many registers, RUN first; the places behind them are unused.
fn text(count: usize) -> Vec<u8> {
    let registers: String = (1..count).map(|place| format!("reg\tr{}\t{}\n", place, width_at(place))).collect();
    format!("rows\t1\nreg\tRUN\t1\n{}do\t1\tRUN\t0\n", registers).into_bytes()
}

/// Widths 1 to 15, over and over: a value can be one bit wider.
fn width_at(place: usize) -> usize {
    place % 15 + 1
}

/// HLT at 0200, from where it is executed.
fn emulation() -> Start {
    let mut memory = vec![0o7777; 4096];
    memory[0o200] = 0o7402;
    Start { memory, registers: [0, 0o200, 1, 0, 0, 0], budget: 3 }
}

fn evaluation() -> EvaluateStart {
    evaluation_of(15)
}

fn evaluation_of(count: usize) -> EvaluateStart {
    let mut registers = [0; REGISTERS];
    registers[0] = 1;
    EvaluateStart { text: text(count), memory: vec![0o7777; 4096], registers, budget: 3, rows: vec![9; 128] }
}

struct Edges(Vec<Edge>);

pub fn edges() -> Vec<Edge> {
    let mut all = Edges(Vec::new());
    all.memories();
    all.registers();
    all.budgets();
    all.row_lists();
    all.0
}

impl Edges {
    fn add(&mut self, name: &'static str, answer: [u64; 2], case: Case) {
        self.0.push(Edge { name, past: answer[0] != 0, case, answer });
    }

    /// The same change of memory and budget for both engines.
    fn both(&mut self, name: &'static str, answer: [u64; 2], change: impl Fn(&mut Vec<u16>, &mut u64)) {
        let (mut emulate, mut evaluate) = (emulation(), evaluation());
        change(&mut emulate.memory, &mut emulate.budget);
        change(&mut evaluate.memory, &mut evaluate.budget);
        self.add(name, answer, Case::Emulate(emulate));
        self.add(name, answer, Case::Evaluate(evaluate));
    }

    fn memories(&mut self) {
        for words in [0, 1, 4095, 4096, 4097, 8192] {
            let answer = if words == 4096 { [0, 0] } else { [11, 0] };
            self.both("memory length", answer, |memory, _| memory.resize(words, 0o7777));
        }
        for place in [0, 1, 0o177, 2048, 4094, 4095] {
            for word in [4094, 4095, 4096, 4097, 0xffff] {
                let answer = if word <= 4095 { [0, 0] } else { [12, place as u64] };
                self.both("word", answer, |memory, _| memory[place] = word);
            }
        }
    }

    /// The widest value of each register and one more, RUN's 1 and 2 among them.
    fn registers(&mut self) {
        for (place, width) in WIDTHS.iter().enumerate() {
            for (value, answer) in [((1 << width) - 1, [0, 0]), (1 << width, [13, place as u64]), (0xffff, [13, place as u64])] {
                let mut start = emulation();
                start.registers[place] = value;
                self.add("register value", answer, Case::Emulate(start));
            }
        }
        for count in [1, 15, 16, 17, 31, 32] {
            self.places(count);
        }
    }

    /// Every place of a set with so many registers, used or not, one and two of them too wide.
    fn places(&mut self, count: usize) {
        for place in 0..REGISTERS {
            let used = place < count;
            let width = if used { width_at(place) } else { 0 };
            let name = if used { "register value" } else { "unused place" };
            for (value, answer) in [((1u16 << width) - 1, [0, 0]), (1 << width, [13, place as u64]), (0xffff, [13, place as u64])] {
                let mut start = evaluation_of(count);
                start.registers[place] = value;
                self.add(name, answer, Case::Evaluate(start.clone()));
                start.registers[REGISTERS - 1] = 0xffff;
                let answer = if answer[0] == 0 { [13, REGISTERS as u64 - 1] } else { answer };
                self.add(name, answer, Case::Evaluate(start));
            }
        }
    }

    fn budgets(&mut self) {
        for budget in [0, 1, 999_999, 1_000_000, 1_000_001, 1 << 32, u64::MAX] {
            let answer = if budget <= 1_000_000 { [0, 0] } else { [14, 0] };
            self.both("budget", answer, |_, b| *b = budget);
        }
    }

    fn row_lists(&mut self) {
        for places in [0, 1, 127, 128, 129, 300] {
            let answer = if places >= 128 { [0, 0] } else { [15, 0] };
            let mut start = evaluation();
            start.rows = vec![9; places];
            self.add("row list", answer, Case::Evaluate(start));
        }
    }
}

/// What the Rust side gives for an edge, if it isn't the known answer.
pub fn unmet(edge: &Edge) -> Option<String> {
    let outcome = match &edge.case {
        Case::Emulate(start) => {
            let (mut memory, mut registers) = (start.memory.clone(), start.registers);
            independent::emulate(&mut memory, &mut registers, start.budget).to_vec()
        }
        Case::Evaluate(start) => {
            let mut s = start.clone();
            independent::evaluate(&s.text, &mut s.memory, &mut s.registers, s.budget, &mut s.rows).to_vec()
        }
        _ => return None,
    };
    let place = if outcome[0] == 0 { 0 } else { outcome[1] };
    if [outcome[0], place] == edge.answer { None } else { Some(format!("the Rust side gives {:?}, known is {:?}", outcome, edge.answer)) }
}
