//! The reader: from any bytes to a description, or to refusal 1 to 8 and its line.

use crate::expression::{destination, expression, Destination, Expression, Register};
use crate::lines::{decimal, fields, lines, well_formed};
use crate::state::{refuse, Refusal};

/// Limits of a text.
pub const TEXT_BYTES: usize = 16384;
pub const REGISTERS: usize = 32;
pub const ROWS: usize = 128;
pub const LABELS: usize = 32;
pub const ALL_PIECES: usize = 1024;

const HEADER: &[u8] = b"rows\t1";
const RESERVED: [&[u8]; 9] = [b"M", b"Not", b"Slr", b"Srr", b"Eql", b"Neq", b"Lss", b"And", b"Or"];

#[derive(Clone, PartialEq, Eq, Debug)]
pub enum Row {
    Do { condition: Expression, destination: Destination, expression: Expression },
    /// `target` is the index of the row that comes next after the label.
    Go { condition: Expression, target: usize },
}

#[derive(Clone, PartialEq, Eq, Debug)]
pub struct Description {
    pub registers: Vec<Register>,
    pub rows: Vec<Row>,
    pub labels: usize,
    pub pieces: usize,
    /// Register RUN, whose width is 1.
    pub run: usize,
}

/// A label: its name, its line, and the rows before it.
struct Label {
    name: Vec<u8>,
    line: usize,
    rows_before: usize,
}

/// A `go` whose label is looked for after all lines.
struct Go {
    row: usize,
    line: usize,
    label: Vec<u8>,
}

/// What has been read so far.
#[derive(Default)]
struct Reading {
    registers: Vec<Register>,
    rows: Vec<Row>,
    labels: Vec<Label>,
    gos: Vec<Go>,
    pieces: usize,
    past_registers: bool,
}

/// The outcome as guavachisel_read gives it.
pub fn read(text: &[u8]) -> [u64; 2] {
    match description(text) {
        Ok(_) => [0, 0],
        Err(refusal) => [refusal.number, refusal.place],
    }
}

pub fn description(text: &[u8]) -> Result<Description, Refusal> {
    if text.len() > TEXT_BYTES {
        return refuse(1, 0);
    }
    let first = text.split(|byte| *byte == b'\n').next();
    if first != Some(HEADER) {
        return refuse(2, 1);
    }
    let lines = lines(text);
    let mut reading = Reading::default();
    for line in &lines {
        match line.bytes {
            None => return refuse(3, line.number),
            Some(_) if line.number == 1 => {}
            Some(bytes) => {
                if let Err(number) = reading.line(bytes, line.number) {
                    return refuse(number, line.number);
                }
            }
        }
    }
    reading.finish(lines.len() + 1)
}

fn or_refuse<T>(found: Option<T>, number: u64) -> Result<T, u64> {
    found.ok_or(number)
}

fn hold(kept: bool, number: u64) -> Result<(), u64> {
    if kept { Ok(()) } else { Err(number) }
}

impl Reading {
    fn line(&mut self, bytes: &[u8], number: usize) -> Result<(), u64> {
        let parts = or_refuse(fields(bytes), 3)?;
        match (parts[0], parts.len()) {
            (b"reg", 3) => {
                hold(!self.past_registers, 3)?;
                return self.register(parts[1], parts[2]);
            }
            (b"do", 4) => self.do_line(parts[1], parts[2], parts[3])?,
            (b"go", 3) => self.go_line(parts[1], parts[2], number)?,
            (b"at", 2) => self.at_line(parts[1], number)?,
            _ => return Err(3),
        }
        self.past_registers = true;
        Ok(())
    }

    fn register(&mut self, name: &[u8], width: &[u8]) -> Result<(), u64> {
        let repeated = self.registers.iter().any(|r| r.name == name);
        hold(well_formed(name) && !RESERVED.contains(&name) && !repeated, 4)?;
        let width = or_refuse(decimal(width, 16), 4)? as u8;
        hold(width > 0, 4)?;
        self.registers.push(Register { name: name.to_vec(), width });
        hold(self.registers.len() <= REGISTERS, 7)
    }

    fn do_line(&mut self, condition: &[u8], to: &[u8], value: &[u8]) -> Result<(), u64> {
        let (condition, a) = or_refuse(expression(condition, &self.registers), 5)?;
        let (destination, b) = or_refuse(destination(to, &self.registers), 5)?;
        let (expression, c) = or_refuse(expression(value, &self.registers), 5)?;
        self.rows.push(Row::Do { condition, destination, expression });
        self.row_limits(a + b + c)
    }

    fn go_line(&mut self, condition: &[u8], label: &[u8], line: usize) -> Result<(), u64> {
        let (condition, pieces) = or_refuse(expression(condition, &self.registers), 5)?;
        hold(well_formed(label), 6)?;
        self.gos.push(Go { row: self.rows.len(), line, label: label.to_vec() });
        self.rows.push(Row::Go { condition, target: 0 });
        self.row_limits(pieces)
    }

    fn row_limits(&mut self, pieces: usize) -> Result<(), u64> {
        self.pieces += pieces;
        hold(self.rows.len() <= ROWS && self.pieces <= ALL_PIECES, 7)
    }

    fn at_line(&mut self, label: &[u8], line: usize) -> Result<(), u64> {
        let repeated = self.labels.iter().any(|l| l.name == label);
        let clashes = self.registers.iter().any(|r| r.name == label);
        hold(well_formed(label) && !repeated && !clashes, 6)?;
        self.labels.push(Label { name: label.to_vec(), line, rows_before: self.rows.len() });
        hold(self.labels.len() <= LABELS, 7)
    }

    /// After all lines: `go` targets, lowest line first, then RUN.
    fn finish(mut self, line_after: usize) -> Result<Description, Refusal> {
        for go in &self.gos {
            let lower = self.labels.iter().find(|l| l.name == go.label && l.line > go.line);
            match (lower, &mut self.rows[go.row]) {
                (Some(label), Row::Go { target, .. }) => *target = label.rows_before,
                _ => return refuse(6, go.line),
            }
        }
        let run = self.registers.iter().position(|r| r.name == b"RUN" && r.width == 1);
        match run {
            None => refuse(8, line_after),
            Some(run) => {
                let labels = self.labels.len();
                Ok(Description { registers: self.registers, rows: self.rows, labels, pieces: self.pieces, run })
            }
        }
    }
}
