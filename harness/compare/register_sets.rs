//! Descriptions whose register set is full: 32 registers, two of each width, in any order.

use crate::expressions::Register;
use crate::random::Random;
use crate::texts::row;
use independent::description::REGISTERS;

/// Widths 1 to 16, each as often as another, in any order; RUN's place has a 1.
fn widths(random: &mut Random, run: usize) -> Vec<u8> {
    let mut widths: Vec<u8> = (0..REGISTERS).map(|n| (n % 16 + 1) as u8).collect();
    for place in 1..REGISTERS {
        widths.swap(place, random.below(place + 1));
    }
    if let Some(narrow) = widths.iter().position(|width| *width == 1) {
        widths.swap(narrow, run);
    }
    widths
}

/// Rows from the grammar over a full set.
pub fn text(random: &mut Random) -> Vec<u8> {
    let run = random.below(REGISTERS);
    let name = |place: usize| if place == run { "RUN".to_string() } else { format!("r{}", place) };
    let registers: Vec<Register> = widths(random, run).into_iter().enumerate().map(|(place, width)| Register { name: name(place), width }).collect();
    let mut text = String::from("rows\t1\n");
    for register in &registers {
        text += &format!("reg\t{}\t{}\n", register.name, register.width);
    }
    for _ in 0..random.between(10, 40) {
        text += &row(random, &registers, 12, "");
        text.push('\n');
    }
    text.into_bytes()
}
