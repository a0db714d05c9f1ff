//! Lines to read constants from: marks, digits, letters and dots in any order, any bytes, lines of descriptions, long lines.

use crate::damage::damage;
use crate::random::Random;
use crate::texts;

/// Numbers of digits behind a mark: none, the most that there may be and one more.
const BINARY_DIGITS: [usize; 16] = [0, 1, 1, 2, 3, 4, 5, 6, 8, 12, 15, 16, 16, 17, 18, 33];
const OCTAL_DIGITS: [usize; 13] = [0, 1, 1, 2, 3, 4, 5, 5, 6, 6, 7, 16, 17];
/// Lengths of a decimal.
const DECIMAL_DIGITS: [usize; 10] = [1, 2, 3, 4, 5, 5, 6, 10, 16, 20];
/// Decimals that are just inside or outside the rules, or come back to a small value where only some bits are kept.
const DECIMALS: [&str; 24] = [
    "0", "1", "2", "7", "8", "15", "16", "00", "01", "007", "32766", "32767", "32768", "32769", "32770", "40000", "65535", "65536", "65551", "99999", "100000",
    "4294967297", "18446744073709551617", "032767",
];
/// Letters and dots that may join a constant.
const LETTERS: [&str; 13] = ["a", "z", "A", "Z", "M", "e", "x", ".", "..", "r7", "Eql", "And", "Not1."];
/// Bytes that end a constant, the neighbours of digits and letters among them.
const OTHERS: &[u8] = b"  \t\n\0\x7f\x80\xb1\xff+-/:<>@[]`{(),?^_'#\"!";
/// Bytes that mean something to the reader.
const DENSE: &[u8] = b"''##0011234567789.aZ ";

/// A line of one of these kinds.
pub fn line(random: &mut Random) -> Vec<u8> {
    match random.below(20) {
        0..=9 => {
            let pieces = random.below(13);
            (0..pieces).flat_map(|_| piece(random)).collect()
        }
        10 | 11 => (0..random.below(41)).map(|_| random.bits(8) as u8).collect(),
        12 | 13 => (0..random.below(31)).map(|_| *random.pick(DENSE)).collect(),
        14..=17 => of_description(random),
        18 => long(random, 200),
        _ if random.once_in(100) => {
            let bytes = random.between(1_000, 3_000);
            long(random, bytes)
        }
        _ => {
            let bytes = random.between(190, 300);
            long(random, bytes)
        }
    }
}

fn digits(random: &mut Random, count: usize, of: usize) -> Vec<u8> {
    (0..count).map(|_| b'0' + random.below(of) as u8).collect()
}

fn marked(random: &mut Random, mark: u8, counts: &[usize], of: usize) -> Vec<u8> {
    let count = *random.pick(counts);
    [vec![mark], digits(random, count, of)].concat()
}

/// A constant, something near one, or what may stand beside it.
fn piece(random: &mut Random) -> Vec<u8> {
    match random.below(9) {
        0 | 1 => marked(random, b'\'', &BINARY_DIGITS, 2),
        2 | 3 => marked(random, b'#', &OCTAL_DIGITS, 8),
        4 => random.pick(&DECIMALS).as_bytes().to_vec(),
        5 => {
            let width = random.between(1, 16) as u8;
            random.bits(width).to_string().into_bytes()
        }
        6 => {
            let count = *random.pick(&DECIMAL_DIGITS);
            digits(random, count, 10)
        }
        7 => random.pick(&LETTERS).as_bytes().to_vec(),
        _ => vec![*random.pick(OTHERS)],
    }
}

/// A line of a description, now and then of a damaged one, with its LF or without.
fn of_description(random: &mut Random) -> Vec<u8> {
    let mut text = texts::text(random).0;
    if random.once_in(4) {
        damage(random, &mut text);
    }
    let end = if random.once_in(2) { &b"\n"[..] } else { b"" };
    let lines: Vec<&[u8]> = text.split(|byte| *byte == b'\n').collect();
    [*random.pick(&lines), end].concat()
}

/// So many bytes, of constants and what may stand beside them, or of digits only.
fn long(random: &mut Random, bytes: usize) -> Vec<u8> {
    let mut line = match random.below(5) {
        0 => digits(random, bytes, 10),
        1 => [b"'".to_vec(), digits(random, bytes, 2)].concat(),
        2 => [b"#".to_vec(), digits(random, bytes, 8)].concat(),
        _ => Vec::new(),
    };
    while line.len() < bytes {
        line.extend(piece(random));
    }
    line.truncate(bytes);
    line
}
