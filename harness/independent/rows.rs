//! What rows mean: the value of an expression, what a destination takes, and a cycle. It walks the trees that the reader has
//! made, sentence by sentence as document 01 has them, and works nothing out before.

use crate::description::{Row, REGISTERS};
use crate::expression::{Binary, Destination, Expression, Kind, Part};
use crate::machine::{Memory, WORD};

/// The evaluator's places.
pub type Registers = [u16; REGISTERS];

/// The largest value of so many bits.
fn largest(width: u8) -> u16 {
    ((1u32 << width) - 1) as u16
}

/// "A memory address is taken modulo 4,096."
fn place(address: u16) -> usize {
    (address & WORD) as usize
}

/// A register's bits, bit 0 the leftmost.
fn bits(part: &Part, registers: &Registers) -> u16 {
    let right_of_it = part.of - 1 - part.last;
    registers[part.register] >> right_of_it & largest(part.last - part.first + 1)
}

/// An expression's value, which is never wider than the expression.
pub fn value(expression: &Expression, registers: &Registers, memory: &Memory) -> u16 {
    let of = |side: &Expression| value(side, registers, memory);
    match &expression.kind {
        Kind::Part(part) => bits(part, registers),
        Kind::Constant(value) => *value,
        Kind::Word(address) => memory[place(of(address))],
        Kind::Not(side) => of(side) ^ largest(side.width),
        Kind::Rotate { left, of: side, count } => rotated(of(side), side.width, *left, *count),
        Kind::Two(operator, left, right) => two(*operator, of(left), of(right), right.width),
    }
}

/// "rotate; right side a decimal from 0 to 15, taken modulo the left width"
fn rotated(value: u16, width: u8, left: bool, count: u8) -> u16 {
    let places = count % width;
    let to_the_left = if left { places } else { width - places };
    let value = u32::from(value);
    (value << to_the_left | value >> (width - to_the_left)) as u16 & largest(width)
}

/// "All arithmetic is unsigned, the shorter side zero-extended."
fn two(operator: Binary, left: u16, right: u16, right_width: u8) -> u16 {
    match operator {
        Binary::Join => left << right_width | right,
        Binary::Add => left + right,
        Binary::Eql => u16::from(left == right),
        Binary::Neq => u16::from(left != right),
        Binary::Lss => u16::from(left < right),
        Binary::And => left & right,
        Binary::Or => left | right,
    }
}

/// "Storing drops extra left bits or fills zeros on the left; a bit part's other bits stay."
fn assign(destination: &Destination, expression: &Expression, registers: &mut Registers, memory: &mut Memory) {
    let stored = value(expression, registers, memory);
    match destination {
        Destination::Word(address) => memory[place(value(address, registers, memory))] = stored & WORD,
        Destination::Part(part) => {
            let right_of_it = part.of - 1 - part.last;
            let own = largest(part.last - part.first + 1);
            let others = registers[part.register] & !(own << right_of_it);
            registers[part.register] = others | (stored & own) << right_of_it;
        }
    }
}

/// "A cycle runs from the first row past the last. A row acted if it was reached and its condition wasn't 0." The numbers of
/// the rows that acted, rising.
pub fn cycle(rows: &[Row], registers: &mut Registers, memory: &mut Memory) -> Vec<u8> {
    let mut acted = Vec::new();
    let mut at = 0;
    while at < rows.len() {
        let row = &rows[at];
        at += 1;
        let (Row::Do { condition, .. } | Row::Go { condition, .. }) = row;
        if value(condition, registers, memory) == 0 {
            continue;
        }
        acted.push(at as u8);
        match row {
            Row::Do { destination, expression, .. } => assign(destination, expression, registers, memory),
            Row::Go { target, .. } => at = *target,
        }
    }
    acted
}
