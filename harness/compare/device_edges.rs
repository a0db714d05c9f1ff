//! Short runs with devices whose ends are worked out by hand from documents 01 and 02: where a byte arrives, a flag rises, a byte is printed,
//! INTERRUPT.REQUEST is refreshed, and which reason goes before which.

use crate::cases::{Case, EvaluateStart};
use crate::coverage::Coverage;
use crate::device_cases::{own_emulation, own_evaluation};
use crate::device_starts::{DeviceEvaluateStart, DeviceStart};
use crate::images::Start;
use independent::description::REGISTERS;
use independent::emulate_devices::widths;
use independent::state::{HALTED, PAPER, SPENT};

pub struct DeviceEdge {
    pub name: String,
    pub case: Case,
    /// What the run gives: refusal, steps or the refusal's place, reason, rows, bytes that arrived, bytes printed.
    outcome: [u64; 6],
    /// The registers that it leaves, of the emulator the devices' after its own.
    registers: Vec<u16>,
    /// The first bytes of the output; the others are FILLER.
    output: Vec<u8>,
}

/// What the output holds before a run.
const FILLER: u8 = 0o252;

/// A program from 0200 on, and how it starts.
struct Run {
    words: &'static [u16],
    machine: [u16; 6],
    devices: [u16; 5],
    budget: u64,
    input: &'static [u8],
    room: usize,
}

/// LAC 0, PC 0200, RUN 1, no interrupts, no input, room for four bytes.
const RUN: Run = Run { words: &[], machine: [0, 0o200, 1, 0, 0, 0], devices: [0; 5], budget: 1, input: &[], room: 4 };

/// How a run of the emulator ends: steps and reason, bytes that arrived, bytes printed.
struct End(u64, u64, u64, &'static [u8]);

pub fn edges() -> Vec<DeviceEdge> {
    let mut edges = Vec::new();
    instructions(&mut edges);
    flags(&mut edges);
    requests(&mut edges);
    reasons(&mut edges);
    rows(&mut edges);
    refusals(&mut edges);
    edges
}

fn add(edges: &mut Vec<DeviceEdge>, name: &str, run: Run, end: End, machine: [u16; 6], devices: [u16; 5]) {
    let mut memory = vec![0; 4096];
    memory[0o200..0o200 + run.words.len()].copy_from_slice(run.words);
    let start = Start { memory, registers: run.machine, budget: run.budget };
    let case = Case::EmulateDevices(DeviceStart { start, devices: run.devices, input: run.input.to_vec(), output: vec![FILLER; run.room] });
    let End(steps, reason, read, printed) = end;
    let outcome = [0, steps, reason, 0, read, printed.len() as u64];
    edges.push(DeviceEdge { name: name.to_string(), case, outcome, registers: [&machine[..], &devices[..]].concat(), output: printed.to_vec() });
}

/// The eight instructions.
fn instructions(e: &mut Vec<DeviceEdge>) {
    let full = [0o17777, 0o200, 1, 0, 0, 0];
    let after = |lac, pc, request| [lac, pc, 1, 0, request, 0];
    add(e, "KSF, flag 1", Run { words: &[0o6031], devices: [0, 1, 0, 0, 0], ..RUN }, End(1, SPENT, 0, &[]), after(0, 0o202, 1), [0, 1, 0, 0, 0]);
    add(e, "KSF, flag 0", Run { words: &[0o6031], ..RUN }, End(1, SPENT, 0, &[]), after(0, 0o201, 0), [0; 5]);
    add(e, "KCC", Run { words: &[0o6032], machine: full, devices: [5, 1, 0, 0, 0], ..RUN }, End(1, SPENT, 0, &[]), after(0o10000, 0o201, 0), [5, 0, 0, 0, 0]);
    let read = Run { words: &[0o6034], machine: [0o14100, 0o200, 1, 0, 0, 0], devices: [0o252, 0, 0, 0, 0], ..RUN };
    add(e, "KRS, whatever the flag", read, End(1, SPENT, 0, &[]), after(0o14352, 0o201, 0), [0o252, 0, 0, 0, 0]);
    let both = Run { words: &[0o6036], machine: full, devices: [0o252, 1, 0, 0, 0], ..RUN };
    add(e, "KRB clears, then ors", both, End(1, SPENT, 0, &[]), after(0o10252, 0o201, 0), [0o252, 0, 0, 0, 0]);
    add(e, "TSF, flag 1", Run { words: &[0o6041], devices: [0, 0, 1, 0, 0], ..RUN }, End(1, SPENT, 0, &[]), after(0, 0o202, 1), [0, 0, 1, 0, 0]);
    add(e, "TSF, flag 0", Run { words: &[0o6041], ..RUN }, End(1, SPENT, 0, &[]), after(0, 0o201, 0), [0; 5]);
    add(e, "TCF", Run { words: &[0o6042], devices: [0, 0, 1, 0, 0], ..RUN }, End(1, SPENT, 0, &[]), after(0, 0o201, 0), [0; 5]);
    let prints = |word: &'static [u16]| Run { words: word, machine: [0o17541, 0o200, 1, 0, 0, 0], devices: [0, 0, 1, 7, 0], ..RUN };
    add(e, "TPC leaves the flag", prints(&[0o6044]), End(1, SPENT, 0, &[0o141]), after(0o17541, 0o201, 1), [0, 0, 1, 0o141, 1]);
    add(e, "TLS clears the flag", prints(&[0o6046]), End(1, SPENT, 0, &[0o141]), after(0o17541, 0o201, 0), [0, 0, 0, 0o141, 1]);
}

/// When a byte arrives and when the printer flag rises.
fn flags(e: &mut Vec<DeviceEdge>) {
    let after = |lac, pc, request| [lac, pc, 1, 0, request, 0];
    add(e, "KSF skips in the step in which the byte arrives", Run { words: &[0o6031], input: &[9, 8], ..RUN }, End(1, SPENT, 1, &[]), after(0, 0o202, 1), [9, 1, 0, 0, 0]);
    let cleared = |budget| Run { words: &[0o6032, 0o7000], devices: [9, 1, 0, 0, 0], input: &[8], budget, ..RUN };
    add(e, "after KCC the next byte is still unread", cleared(1), End(1, SPENT, 0, &[]), after(0, 0o201, 0), [9, 0, 0, 0, 0]);
    add(e, "it arrives a step later", cleared(2), End(2, SPENT, 1, &[]), after(0, 0o202, 1), [8, 1, 0, 0, 0]);
    add(e, "KRB reads the byte that arrives", Run { words: &[0o6036], input: &[0o377], ..RUN }, End(1, SPENT, 1, &[]), after(0o377, 0o201, 0), [0o377, 0, 0, 0, 0]);
    let polled = Run { words: &[0o6046, 0o6041], machine: [7, 0o200, 1, 0, 0, 0], budget: 2, ..RUN };
    add(e, "TSF skips in the step after a print", polled, End(2, SPENT, 0, &[7]), after(7, 0o203, 1), [0, 0, 1, 7, 0]);
    let taken = Run { words: &[0o6046, 0o6042], machine: [7, 0o200, 1, 0, 0, 0], budget: 2, ..RUN };
    add(e, "TCF clears the flag that rose in its step", taken, End(2, SPENT, 0, &[7]), after(7, 0o202, 0), [0, 0, 0, 7, 0]);
    let marked = |words| Run { words, devices: [0, 0, 0, 0o123, 1], ..RUN };
    add(e, "a mark at entry prints nothing", marked(&[0o7000]), End(1, SPENT, 0, &[]), after(0, 0o201, 1), [0, 0, 1, 0o123, 0]);
    add(e, "a mark at entry, then TPC", marked(&[0o6044]), End(1, SPENT, 0, &[0]), after(0, 0o201, 1), [0, 0, 1, 0, 1]);
    let none = Run { words: &[0o7000], devices: [0, 0, 0, 0o123, 1], budget: 0, ..RUN };
    add(e, "a mark at entry, budget 0", none, End(0, SPENT, 0, &[]), [0, 0o200, 1, 0, 0, 0], [0, 0, 0, 0o123, 1]);
}

/// INTERRUPT.REQUEST, and the interrupt.
fn requests(e: &mut Vec<DeviceEdge>) {
    let ready = [0, 1, 0, 0, 0];
    add(e, "the request of a call is overwritten", Run { words: &[0o7000], machine: [0, 0o200, 1, 1, 1, 0], ..RUN }, End(1, SPENT, 0, &[]), [0, 0o201, 1, 1, 0, 0], [0; 5]);
    add(e, "the request is refreshed with interrupts off", Run { words: &[0o7000], devices: ready, ..RUN }, End(1, SPENT, 0, &[]), [0, 0o201, 1, 0, 1, 0], ready);
    let off = Run { words: &[0o6002], machine: [0, 0o200, 1, 1, 0, 0], devices: [0, 0, 1, 0, 0], ..RUN };
    add(e, "6002 refreshes the request", off, End(1, SPENT, 0, &[]), [0, 0o201, 1, 0, 1, 0], [0, 0, 1, 0, 0]);
    let on = |budget| Run { words: &[0o6001, 0o7000], input: &[9], budget, ..RUN };
    add(e, "6001 with a byte arriving", on(1), End(1, SPENT, 1, &[]), [0, 0o201, 1, 1, 0, 0], [9, 1, 0, 0, 0]);
    add(e, "6001 with a byte arriving, then 7000", on(2), End(2, SPENT, 1, &[]), [0, 1, 1, 0, 1, 0], [9, 1, 0, 0, 0]);
    let halt = |machine| Run { words: &[0o7402], machine, input: &[9], budget: 5, ..RUN };
    add(e, "HLT with a byte arriving", halt([0, 0o200, 1, 1, 0, 0]), End(1, HALTED, 1, &[]), [0, 0o201, 0, 1, 0, 0], [9, 1, 0, 0, 0]);
    let kept = Run { words: &[0o7402], machine: [0, 0o200, 1, 1, 1, 0], budget: 5, ..RUN };
    add(e, "HLT leaves the request", kept, End(1, HALTED, 0, &[]), [0, 0o201, 0, 1, 1, 0], [0; 5]);
    let print = Run { words: &[0o6046, 0o7000], machine: [7, 0o200, 1, 1, 0, 0], budget: 2, ..RUN };
    add(e, "an interrupt at the end of the step after a print", print, End(2, SPENT, 0, &[7]), [7, 1, 1, 0, 1, 0], [0, 0, 1, 7, 0]);
}

/// `halted`, `paper`, `spent`, in this order, and the room.
fn reasons(e: &mut Vec<DeviceEdge>) {
    let prints = |budget, room| Run { words: &[0o6046, 0o6046, 0o6046, 0o7402], machine: [7, 0o200, 1, 0, 0, 0], budget, room, ..RUN };
    let (left, marked) = (|pc, run| [7, pc, run, 0, 0, 0], [0, 0, 0, 7, 1]);
    add(e, "room one less than is printed", prints(9, 2), End(2, PAPER, 0, &[7, 7]), left(0o202, 1), marked);
    add(e, "room for what is printed", prints(9, 3), End(3, PAPER, 0, &[7, 7, 7]), left(0o203, 1), marked);
    add(e, "room one more than is printed", prints(9, 4), End(4, HALTED, 0, &[7, 7, 7]), left(0o204, 0), [0, 0, 1, 7, 0]);
    add(e, "paper before spent", prints(3, 3), End(3, PAPER, 0, &[7, 7, 7]), left(0o203, 1), marked);
    add(e, "spent with a place left", prints(3, 4), End(3, SPENT, 0, &[7, 7, 7]), left(0o203, 1), marked);
    add(e, "no room, budget 0", prints(0, 0), End(0, PAPER, 0, &[]), left(0o200, 1), [0; 5]);
    add(e, "no room, nothing printed", Run { words: &[0o7000], input: &[9], room: 0, ..RUN }, End(0, PAPER, 0, &[]), [0, 0o200, 1, 0, 0, 0], [0; 5]);
    let stopped = |budget, room| Run { machine: [7, 0o200, 0, 0, 0, 0], ..prints(budget, room) };
    add(e, "halted before paper", stopped(9, 0), End(0, HALTED, 0, &[]), left(0o200, 0), [0; 5]);
    add(e, "halted before paper, budget 0", stopped(0, 0), End(0, HALTED, 0, &[]), left(0o200, 0), [0; 5]);
}

/// The five registers out of order; each cycle prints A, and the last row is added.
fn text(key_byte: u8, last: &str) -> Vec<u8> {
    let registers = "reg\tRUN\t1\nreg\tPRINT.MARK\t1\nreg\tINTERRUPT.REQUEST\t1\nreg\tPRINT.BYTE\t8\nreg\tPRINTER.FLAG\t1\nreg\tKEYBOARD.FLAG\t1\n";
    format!("rows\t1\n{}reg\tKEY.BYTE\t{}\ndo\t1\tPRINT.BYTE\t#101\ndo\t1\tPRINT.MARK\t1\n{}", registers, key_byte, last).into_bytes()
}

/// Cycles of rows.
fn rows(edges: &mut Vec<DeviceEdge>) {
    let mut add = |name: &str, text: Vec<u8>, budget, room, outcome: [u64; 6], left: [u16; 7], printed: usize| {
        let (mut registers, mut end) = ([0; REGISTERS], [0; REGISTERS]);
        registers[0] = 1;
        end[..7].copy_from_slice(&left);
        let start = EvaluateStart { text, memory: vec![0; 4096], registers, budget, rows: vec![9; 128] };
        let case = Case::EvaluateDevices(DeviceEvaluateStart { start, input: vec![9, 8], output: vec![FILLER; room] });
        edges.push(DeviceEdge { name: name.to_string(), case, outcome, registers: end.to_vec(), output: vec![0o101; printed] });
    };
    // RUN, PRINT.MARK, INTERRUPT.REQUEST, PRINT.BYTE, PRINTER.FLAG, KEYBOARD.FLAG, KEY.BYTE
    let halting = "do\t1\tRUN\t0\n";
    add("a cycle that prints and halts", text(8, halting), 5, 1, [0, 1, HALTED, 3, 1, 1], [0, 1, 0, 0o101, 0, 1, 9], 1);
    add("a cycle that leaves the mark prints each time", text(8, ""), 3, 4, [0, 3, SPENT, 2, 1, 3], [1, 1, 0, 0o101, 1, 1, 9], 3);
    add("cycles without room for more", text(8, ""), 3, 2, [0, 2, PAPER, 2, 1, 2], [1, 1, 0, 0o101, 1, 1, 9], 2);
    let cleared = "do\t1\tKEYBOARD.FLAG\t0\n";
    add("a cycle that clears the flag", text(8, cleared), 2, 4, [0, 2, SPENT, 3, 2, 2], [1, 1, 0, 0o101, 1, 0, 8], 2);
    let unmarked = "do\t1\tPRINT.MARK\t0\n";
    add("a mark that the same cycle clears", text(8, unmarked), 2, 1, [0, 2, SPENT, 3, 1, 0], [1, 0, 0, 0o101, 0, 1, 9], 0);
    add("KEY.BYTE of 9 bits: no devices", text(9, halting), 5, 0, [0, 1, HALTED, 3, 0, 0], [0, 1, 0, 0o101, 0, 0, 0], 0);
    add("KEY.BYTE of 7 bits: no devices", text(7, ""), 2, 1, [0, 2, SPENT, 2, 0, 0], [1, 1, 0, 0o101, 0, 0, 0], 0);
}

/// The widest value of each of the eleven registers, and one more; a program that would print.
fn refusals(edges: &mut Vec<DeviceEdge>) {
    for (place, width) in widths().into_iter().enumerate() {
        for past in [false, true] {
            let mut values = [0, 0o200, 1, 0, 0, 0, 0, 0, 0, 0, 0];
            values[place] = if past { 1 << width } else { (1 << width) - 1 };
            let (mut registers, mut devices) = ([0; 6], [0; 5]);
            registers.copy_from_slice(&values[..6]);
            devices.copy_from_slice(&values[6..]);
            let start = Start { memory: vec![0o6046; 4096], registers, budget: 0 };
            let case = Case::EmulateDevices(DeviceStart { start, devices, input: vec![9], output: vec![FILLER; 2] });
            let outcome = if past { [13, place as u64, 0, 0, 0, 0] } else { [0, 0, SPENT, 0, 0, 0] };
            let name = format!("{} value in place {}", if past { "too wide a" } else { "the widest" }, place);
            edges.push(DeviceEdge { name, case, outcome, registers: values.to_vec(), output: Vec::new() });
        }
    }
}

/// What the Rust side gives for an edge, if it isn't what is known.
pub fn unmet(edge: &DeviceEdge) -> Option<String> {
    let unwatched = &mut Coverage::new();
    let (outcome, registers, output) = match edge.case.clone() {
        Case::EmulateDevices(mut lent) => {
            let outcome = own_emulation(&mut lent, unwatched);
            (outcome, [&lent.start.registers[..], &lent.devices[..]].concat(), lent.output)
        }
        Case::EvaluateDevices(mut lent) => {
            let outcome = own_evaluation(&mut lent, unwatched);
            (outcome, lent.start.registers.to_vec(), lent.output)
        }
        _ => return None,
    };
    let mut known = edge.output.clone();
    known.resize(output.len(), FILLER);
    if (outcome, &registers, &output) == (edge.outcome, &edge.registers, &known) {
        return None;
    }
    Some(format!("{}: the Rust side gives {:?} {:?} {:?}, known is {:?} {:?} {:?}", edge.name, outcome, registers, output, edge.outcome, edge.registers, known))
}
