//! Random descriptions from the grammar. Nearly all of them are accepted.

use crate::expressions::{alternatives, destination, expression, spaced, Register};
use crate::random::Random;

/// Names that a careless reader might take for something else.
const ODD_NAMES: [&str; 20] = [
    "a", "B", "not", "M1", "Not1", "And.", "or", "m", "LAC", "PC", "x.y.z", "A", "Eq", "Eqll", "RUN2", "run", "Z9",
    "abcdefghijklmnopqrst", "ABCDEFGHIJ.LMNOPQRST", "rows",
];
const ODD_LABELS: [&str; 10] = ["M", "And", "Not", "loop", "do", "go", "at", "reg", "l.1", "abcdefghijklmnopqrst"];

/// So many registers, RUN among them unless `without_run`.
fn registers(random: &mut Random, count: usize, without_run: bool) -> Vec<Register> {
    let mut found: Vec<Register> = Vec::new();
    let run_at = random.below(count);
    while found.len() < count {
        let name = if found.len() == run_at && !without_run {
            "RUN".to_string()
        } else if random.once_in(2) {
            random.pick(&ODD_NAMES).to_string()
        } else {
            format!("r{}", random.below(100))
        };
        if found.iter().any(|r| r.name == name) {
            continue;
        }
        let width = if name == "RUN" { 1 } else { random.between(1, 16) as u8 };
        found.push(Register { name, width });
    }
    found
}

/// How large a text is made.
struct Size {
    registers: usize,
    rows: usize,
    labels: usize,
    /// Most pieces of an expression.
    pieces: usize,
}

/// Mostly small; now and then about as many registers, rows, labels or pieces as a text may have.
fn size(random: &mut Random) -> Size {
    let registers = *random.pick(&[1, 2, 3, 4, 6, 8, 12, 16, 17, 24, 32]);
    let rows = *random.pick(&[0, 1, 1, 2, 3, 5, 8, 12, 20, 30]);
    match random.below(120) {
        0 => Size { registers: random.between(30, 33), rows, labels: 32, pieces: 32 },
        1 => Size { registers, rows: random.between(126, 130), labels: 32, pieces: 3 },
        2 => Size { registers, rows: 100, labels: 33, pieces: 3 },
        3 => Size { registers, rows: random.between(50, 100), labels: 32, pieces: 32 },
        _ => Size { registers, rows, labels: 32, pieces: 32 },
    }
}

/// The `do`, `go` and `at` lines, put together from the last to the first, so that every `go` leads down.
fn body(random: &mut Random, registers: &[Register], size: &Size) -> Vec<String> {
    let mut lines: Vec<String> = Vec::new();
    let mut labels: Vec<String> = Vec::new();
    let label_once_in = if size.rows == 100 { 2 } else { 4 };
    for _ in 0..size.rows {
        if labels.len() < size.labels && random.once_in(label_once_in) {
            let name = if random.once_in(3) { random.pick(&ODD_LABELS).to_string() } else { format!("l{}", labels.len()) };
            let clashes = registers.iter().any(|r| r.name == name) || labels.contains(&name);
            if !clashes {
                lines.push(format!("at\t{}", name));
                labels.push(name);
            }
        }
        let go = !labels.is_empty() && random.once_in(4);
        let label = if go { random.pick(&labels).clone() } else { String::new() };
        lines.push(row(random, registers, size.pieces, &label));
    }
    lines.reverse();
    lines
}

/// A row no longer than a line may be: a `go` if there is a label, else a `do`.
pub fn row(random: &mut Random, registers: &[Register], most: usize, label: &str) -> String {
    loop {
        let pieces = most.min(*random.pick(&[1, 3, 5, 8, 12, 20, 32]));
        let depth = random.between(0, 8);
        let condition = match random.below(12) {
            0..=3 => vec!["1".to_string()],
            4 if most > 7 && !registers.is_empty() => alternatives(random, registers),
            _ => expression(random, registers, pieces, depth, 16),
        };
        let condition = spaced(random, &condition);
        let line = if !label.is_empty() {
            format!("go\t{}\t{}", condition, label)
        } else {
            let to = destination(random, registers, pieces, depth);
            let to = spaced(random, &to);
            let value = expression(random, registers, pieces, depth, 16);
            format!("do\t{}\t{}\t{}", condition, to, spaced(random, &value))
        };
        if line.len() <= 200 {
            return line;
        }
    }
}

/// A description and its registers.
pub fn text(random: &mut Random) -> (Vec<u8>, Vec<Register>) {
    let without_run = random.once_in(40);
    let size = size(random);
    let registers = registers(random, size.registers, without_run);
    let mut text = String::from("rows\t1\n");
    for register in &registers {
        text += &format!("reg\t{}\t{}\n", register.name, register.width);
    }
    for line in body(random, &registers, &size) {
        text += &line;
        text.push('\n');
    }
    (text.into_bytes(), registers)
}
