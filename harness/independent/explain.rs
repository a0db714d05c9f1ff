//! The desk's program: from the bytes of a question, and the shipped descriptions, to the bytes printed.

use crate::description::{description, Description, REGISTERS};
use crate::devices::DEVICE_REGISTERS;
use crate::emulate::emulate;
use crate::emulate_devices::{emulate_devices, widths};
use crate::evaluate::evaluate;
use crate::evaluate_devices::evaluate_devices;
use crate::lines::lines;
use crate::listing::{image_line, octal};
use crate::machine::{word_at, Memory, WORDS};
use crate::mnemonic::mnemonic;
use crate::rows::Registers;
use crate::state::{BUDGET, ROW_PLACES};

const NAMES: [&str; 6] = ["LAC", "PC", "RUN", "INTERRUPT.ENABLE", "INTERRUPT.REQUEST", "SWITCHES"];

/// The most bytes of an input, and the places of the paper.
const BYTES: usize = 64;

const REASONS: [&str; 4] = ["", "halted", "spent", "paper"];

/// What the lines of a question give: a machine's state, the devices' if there are any, and a budget.
#[derive(Clone)]
struct Question {
    memory: Memory,
    registers: [u16; 6],
    devices: [u16; 5],
    with_devices: bool,
    input: Vec<u8>,
    budget: u64,
}

/// What one line says.
enum Said {
    Word(u16, u16),
    Register(usize, u16),
    Budget(u64),
    Input(Vec<u8>),
}

/// A digit for every three bits begun.
fn digits(width: u8) -> usize {
    (usize::from(width) + 2) / 3
}

/// What a line says, its LF aside; `None` if it is unfit.
fn said(line: &[u8]) -> Option<Said> {
    if let Some((address, word)) = image_line(line) {
        return Some(Said::Word(address, word));
    }
    let tab = line.iter().position(|byte| *byte == b'\t')?;
    let (name, value) = (&line[..tab], &line[tab + 1..]);
    if name == b"budget" {
        return budget(value).map(Said::Budget);
    }
    if name == b"input" {
        return bytes(value).map(Said::Input);
    }
    let place = NAMES.iter().map(|known| known.as_bytes()).chain(DEVICE_REGISTERS.iter().map(|(known, _)| *known)).position(|known| known == name)?;
    let width = widths()[place];
    if value.len() != digits(width) {
        return None;
    }
    let value = octal(value)?;
    if value >> width == 0 { Some(Said::Register(place, value)) } else { None }
}

/// 1 to 64 bytes of three octal digits each, parted by one space.
fn bytes(text: &[u8]) -> Option<Vec<u8>> {
    let parts: Vec<&[u8]> = text.split(|byte| *byte == b' ').collect();
    if parts.len() > BYTES {
        return None;
    }
    parts.into_iter().map(|part| if part.len() == 3 { octal(part).and_then(|value| u8::try_from(value).ok()) } else { None }).collect()
}

/// 1 to 7 decimal digits, at most 1,000,000.
fn budget(digits: &[u8]) -> Option<u64> {
    if !(1..=7).contains(&digits.len()) || !digits.iter().all(|digit| digit.is_ascii_digit()) {
        return None;
    }
    let value = digits.iter().fold(0, |value, digit| value * 10 + u64::from(digit - b'0'));
    if value <= BUDGET { Some(value) } else { None }
}

/// The question, or the number of its first unfit line. A line for a device makes the run one with devices.
fn question(input: &[u8]) -> Result<Question, usize> {
    let mut question =
        Question { memory: [0; WORDS], registers: [0, 0o200, 1, 0, 0, 0], devices: [0; 5], with_devices: false, input: Vec::new(), budget: 16 };
    for line in lines(input) {
        match line.bytes.and_then(said).ok_or(line.number)? {
            Said::Word(address, word) => question.memory[address as usize] = word,
            Said::Register(place, value) if place < 6 => question.registers[place] = value,
            Said::Register(place, value) => {
                question.devices[place - 6] = value;
                question.with_devices = true;
            }
            Said::Budget(budget) => question.budget = budget,
            Said::Input(bytes) => {
                question.input = bytes;
                question.with_devices = true;
            }
        }
    }
    Ok(question)
}

/// What a run leaves: memory, the machine's registers, the devices', steps, reason, bytes that arrived, and what was printed.
struct Run {
    memory: Memory,
    registers: [u16; 6],
    devices: [u16; 5],
    steps: u64,
    reason: u64,
    read: u64,
    printed: Vec<u8>,
}

/// The machine after so many steps.
fn after(question: &Question, budget: u64) -> Run {
    let Question { mut memory, mut registers, mut devices, .. } = question.clone();
    let mut paper = [0; BYTES];
    let [_, steps, reason, _, read, printed] = if question.with_devices {
        emulate_devices(&mut memory, &mut registers, &mut devices, budget, &question.input, &mut paper)
    } else {
        let [refusal, steps, reason] = emulate(&mut memory, &mut registers, budget);
        [refusal, steps, reason, 0, 0, 0]
    };
    Run { memory, registers, devices, steps, reason, read, printed: paper[..printed as usize].to_vec() }
}

/// The rows of the description that acted in the last cycle, and the register values that the run leaves.
fn by_rows(question: &Question, text: &[u8]) -> (Vec<u8>, Registers) {
    let (mut memory, mut values, mut rows) = (question.memory, [0; REGISTERS], [0; ROW_PLACES]);
    values[..6].copy_from_slice(&question.registers);
    let listed = if question.with_devices {
        values[6..11].copy_from_slice(&question.devices);
        evaluate_devices(text, &mut memory, &mut values, question.budget, &mut rows, &question.input, &mut [0; BYTES])[3]
    } else {
        evaluate(text, &mut memory, &mut values, question.budget, &mut rows)[3]
    };
    (rows[..listed as usize].to_vec(), values)
}

/// The last step's instruction, and the words that the step changed.
fn last_step(question: &Question, run: &Run) -> String {
    let before = after(question, run.steps - 1);
    let pc = before.registers[1];
    let i = word_at(&before.memory, pc);
    let mut page = format!("last\t{:04o}\t{:04o}\t{}\n", pc, i, mnemonic(pc, i, question.with_devices));
    for (address, (old, new)) in before.memory.iter().zip(&run.memory).enumerate().filter(|(_, (old, new))| old != new) {
        page += &format!("word\t{:04o}\t{:04o}\t{:04o}\n", address, old, new);
    }
    page
}

/// What was read and printed.
fn exchange(run: &Run) -> String {
    let printed: Vec<String> = run.printed.iter().map(|byte| format!("{:03o}", byte)).collect();
    format!("read\t{}\nprinted\t{}\n", run.read, printed.join(" "))
}

/// The description's registers: the machine's first, then its working registers.
fn registers(shipped: &Description, values: &[u16]) -> String {
    let mut page = String::new();
    for (register, value) in shipped.registers.iter().zip(values) {
        page += &format!("{}\t{:0digits$o}\n", String::from_utf8_lossy(&register.name), value, digits = digits(register.width));
    }
    page
}

/// The rows that acted, each its number and its line, and after each `go` its label with the number of the first row below it.
fn rows(text: &str, acted: &[u8]) -> String {
    let all: Vec<&str> = text.lines().collect();
    let is_row = |line: &&&str| line.starts_with("do\t") || line.starts_with("go\t");
    let of_rows: Vec<&str> = all.iter().filter(is_row).copied().collect();
    let mut page = String::new();
    for number in acted {
        let line = of_rows[*number as usize - 1];
        page += &format!("{}\t{}\n", number, line);
        if line.starts_with("go\t") {
            let label = line.rsplit('\t').next().unwrap_or("");
            let above = all.iter().take_while(|other| **other != format!("at\t{}", label)).filter(is_row).count();
            page += &format!("at\t{}\t{}\n", label, above + 1);
        }
    }
    page
}

/// What is printed for a question, by the emulator and by the rows of the shipped description, of its twin where there are devices.
pub fn explain(input: &[u8], shipped: &[u8], twin: &[u8]) -> String {
    let question = match question(input) {
        Err(number) => return format!("refused\t{}\n", number),
        Ok(question) => question,
    };
    let text = if question.with_devices { twin } else { shipped };
    let read = description(text).expect("a shipped description is accepted");
    let run = after(&question, question.budget);
    let (acted, mut values) = by_rows(&question, text);
    values[..6].copy_from_slice(&run.registers);
    if question.with_devices {
        values[6..11].copy_from_slice(&run.devices);
    }
    let mut page = format!("end\t{}\t{}\n", run.steps, REASONS[run.reason as usize]);
    if question.with_devices {
        page += &exchange(&run);
    }
    if run.steps > 0 {
        page += &last_step(&question, &run);
    }
    page + &registers(&read, &values) + &rows(&String::from_utf8_lossy(text), &acted)
}
