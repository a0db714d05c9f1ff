//! A text damaged by an edit, a cut, an insertion, or a line moved, doubled or dropped.

use crate::random::Random;

/// Bytes that mean something to a reader, and some that mean nothing.
const BYTES: &[u8] = b"\t\n \r\0\x7f\xff~!'#0123456789<>:[]()@+.MNaAdoregRUN-_";
const TOKENS: [&str; 30] = [
    "M", "[", "]", "(", ")", "<", ">", ":", "@", "+", "Not", "Slr", "Srr", "Eql", "Neq", "Lss", "And", "Or", "'1", "#7", "'",
    "#", "0", "01", "15", "16", "32767", "32768", "RUN", " ",
];
const LINES: [&str; 12] = [
    "", "reg\tx1\t5", "reg\tM\t3", "reg\tx\t017", "reg\tRUN\t1", "do\t1\tRUN\t0", "do\tRUN", "go\t1\tnowhere", "at\t1a", "at\tlow", "rows\t1", "go\tRUN\tlow\tlow",
];

/// One to three damages.
pub fn damage(random: &mut Random, text: &mut Vec<u8>) {
    for _ in 0..random.between(1, 3) {
        match random.below(10) {
            0 | 1 => edit(random, text),
            2 => insert(random, text),
            3 => drop_bytes(random, text),
            4 => {
                let length = random.below(text.len() + 1);
                text.truncate(length);
            }
            5 => change_line(random, text),
            6 => number(random, text),
            7 => soup(random, text),
            8 => token(random, text),
            _ => insert_line(random, text),
        }
    }
}

fn edit(random: &mut Random, text: &mut [u8]) {
    if !text.is_empty() {
        let at = random.below(text.len());
        text[at] = *random.pick(BYTES);
    }
}

fn insert(random: &mut Random, text: &mut Vec<u8>) {
    let at = random.below(text.len() + 1);
    text.insert(at, *random.pick(BYTES));
}

fn drop_bytes(random: &mut Random, text: &mut Vec<u8>) {
    if !text.is_empty() {
        let at = random.below(text.len());
        let count = random.between(1, 4).min(text.len() - at);
        text.drain(at..at + count);
    }
}

/// A token put in anywhere.
fn token(random: &mut Random, text: &mut Vec<u8>) {
    let at = random.below(text.len() + 1);
    let token = *random.pick(&TOKENS);
    text.splice(at..at, token.bytes());
}

/// Start and end of a line.
fn line(random: &mut Random, text: &[u8]) -> (usize, usize) {
    let at = random.below(text.len() + 1);
    let start = text[..at].iter().rposition(|b| *b == b'\n').map_or(0, |n| n + 1);
    let end = text[at..].iter().position(|b| *b == b'\n').map_or(text.len(), |n| at + n + 1);
    (start, end)
}

/// A line dropped, doubled or put elsewhere.
fn change_line(random: &mut Random, text: &mut Vec<u8>) {
    let (start, end) = line(random, text);
    let bytes = text[start..end].to_vec();
    if !random.once_in(3) {
        text.drain(start..end);
    }
    if !random.once_in(3) {
        let (start, _) = line(random, text);
        text.splice(start..start, bytes);
    }
}

fn insert_line(random: &mut Random, text: &mut Vec<u8>) {
    let (start, _) = line(random, text);
    let mut bytes = random.pick(&LINES).as_bytes().to_vec();
    bytes.push(b'\n');
    text.splice(start..start, bytes);
}

/// A digit one higher or lower.
fn number(random: &mut Random, text: &mut [u8]) {
    let digits: Vec<usize> = (0..text.len()).filter(|at| text[*at].is_ascii_digit()).collect();
    if !digits.is_empty() {
        let at = *random.pick(&digits);
        text[at] = (text[at] - b'0' + *random.pick(&[1, 9])) % 10 + b'0';
    }
}

/// The last field of a line becomes a few tokens in any order.
fn soup(random: &mut Random, text: &mut Vec<u8>) {
    let (start, end) = line(random, text);
    if let Some(tab) = text[start..end].iter().rposition(|b| *b == b'\t') {
        let stop = if text[..end].ends_with(b"\n") { end - 1 } else { end };
        let mut field = String::new();
        for _ in 0..random.between(1, 7) {
            let token = *random.pick(&TOKENS);
            field.push_str(token);
            if random.once_in(2) {
                field.push(' ');
            }
        }
        text.splice(start + tab + 1..stop, field.bytes());
    }
}
