//! Constants, and how far a token goes.

use crate::lines::{decimal, in_run};

/// The place after the token that starts at `start`: a mark with its digits, a run of letters, digits and dots, or any other character.
pub fn token_end(line: &[u8], start: usize) -> usize {
    match line[start] {
        b'\'' => run_end(line, start + 1, |byte| byte == b'0' || byte == b'1'),
        b'#' => run_end(line, start + 1, |byte| (b'0'..=b'7').contains(&byte)),
        byte if in_run(byte) => run_end(line, start, in_run),
        _ => start + 1,
    }
}

fn run_end(line: &[u8], from: usize, belongs: impl Fn(u8) -> bool) -> usize {
    line[from..].iter().position(|byte| !belongs(*byte)).map_or(line.len(), |n| from + n)
}

/// Value and width of a token that is a constant.
pub fn constant(token: &[u8]) -> Option<(u16, u8)> {
    match token[0] {
        b'\'' => marked(&token[1..], 1, 16),
        b'#' => marked(&token[1..], 3, 5),
        _ => plain(token),
    }
}

/// A constant of 1 to `most` digits, each of so many bits.
fn marked(digits: &[u8], bits: u8, most: usize) -> Option<(u16, u8)> {
    if digits.is_empty() || digits.len() > most {
        return None;
    }
    let value = digits.iter().fold(0, |value, digit| value << bits | u16::from(digit - b'0'));
    Some((value, bits * digits.len() as u8))
}

/// A plain decimal from 0 to 32767: its width is one bit more than its shortest form.
fn plain(run: &[u8]) -> Option<(u16, u8)> {
    let value = decimal(run, 32767)? as u16;
    let shortest = if value == 0 { 1 } else { 16 - value.leading_zeros() as u8 };
    Some((value, shortest + 1))
}

/// The constant at a place of a line, as guavachisel_read_constant gives it: 1, value, the places that matter, width and the place after it; zeros where none is.
pub fn read_constant(line: &[u8], start: u64) -> [u64; 5] {
    if start >= line.len() as u64 {
        return [0; 5];
    }
    let start = start as usize;
    let after = token_end(line, start);
    match constant(&line[start..after]) {
        None => [0; 5],
        Some((value, width)) => [1, u64::from(value), (1 << width) - 1, u64::from(width), after as u64],
    }
}
