//! The day listing: from the bytes of an image to the bytes printed.

use crate::machine::{step, word_at, Machine, Memory, Nothing, WORDS};
use crate::watch::Unwatched;

const STEPS: u32 = 16;

/// The value of octal digits, at most five of them.
pub fn octal(digits: &[u8]) -> Option<u16> {
    let mut value = 0;
    for digit in digits {
        if !(b'0'..=b'7').contains(digit) {
            return None;
        }
        value = value * 8 + u16::from(digit - b'0');
    }
    Some(value)
}

/// Address, TAB, word.
pub fn image_line(line: &[u8]) -> Option<(u16, u16)> {
    if line.len() != 9 || line[4] != b'\t' {
        return None;
    }
    Some((octal(&line[..4])?, octal(&line[5..])?))
}

/// The memory of an image, or the number of its first unfit line.
fn image(input: &[u8]) -> Result<Memory, usize> {
    let mut memory = [0; WORDS];
    let mut rest = input;
    let mut number: usize = 0;
    while !rest.is_empty() {
        number += 1;
        let end = rest.iter().position(|byte| *byte == b'\n').ok_or(number)?;
        let (address, word) = image_line(&rest[..end]).ok_or(number)?;
        memory[address as usize] = word;
        rest = &rest[end + 1..];
    }
    Ok(memory)
}

pub fn listing(input: &[u8]) -> String {
    let mut memory = match image(input) {
        Err(number) => return format!("refused\t{}\n", number),
        Ok(memory) => memory,
    };
    let mut machine = Machine::from_array([0, 0o200, 1, 0, 0, 0]);
    let mut page = String::from("step\tpc\ti\tlac\trun\n");
    let mut steps = 0;
    while machine.run == 1 && steps < STEPS {
        let (pc, i) = (machine.pc, word_at(&memory, machine.pc));
        step(&mut memory, &mut machine, &mut Nothing, &mut Unwatched);
        steps += 1;
        page += &format!("{}\t{:04o}\t{:04o}\t{:05o}\t{}\n", steps, pc, i, machine.lac, machine.run);
    }
    let reason = if machine.run == 0 { "halted" } else { "spent" };
    page + &format!("end\t{}\t{}\n", steps, reason)
}
