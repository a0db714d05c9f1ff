//! What has to be tried of constants, and how often it was.

use independent::constants::token_end;

#[derive(Clone)]
pub struct ConstantCoverage {
    /// How often each of THINGS was tried.
    things: [u64; 19],
    /// How often a constant of each width was found.
    widths: [u64; 17],
}

/// Places in THINGS.
const BINARY: usize = 0;
const OCTAL: usize = 1;
const DECIMAL: usize = 2;
const NO_DIGITS: usize = 3;
const BINARY_17: usize = 4;
const OCTAL_6: usize = 5;
const LEADING_ZERO: usize = 6;
const ABOVE: usize = 7;
const LETTER: usize = 8;
const DOT: usize = 9;
const FOUND_INSIDE: usize = 10;
const NONE_INSIDE: usize = 11;
const AT_THE_END: usize = 12;
const PAST_THE_END: usize = 13;
const FAR: usize = 14;
const TO_THE_END: usize = 15;
const ODD_BYTE: usize = 16;
const LONG_LINE: usize = 17;
const EMPTY: usize = 18;

const THINGS: [&str; 19] = [
    "a binary constant read",
    "an octal constant read",
    "a decimal constant read",
    "a mark without digits",
    "17 binary digits",
    "6 octal digits",
    "a decimal with a leading zero",
    "a decimal above 32767",
    "a decimal followed by a letter",
    "a decimal followed by a dot",
    "a constant that starts inside a token",
    "a start inside a token without a constant",
    "a start at the end of the line",
    "a start past the end of the line",
    "a start from 2^32 on",
    "a constant up to the end of the line",
    "a constant before a byte other than 32 to 126",
    "a constant behind 200 bytes",
    "a start in an empty line",
];

impl ConstantCoverage {
    pub fn new() -> ConstantCoverage {
        ConstantCoverage { things: [0; 19], widths: [0; 17] }
    }

    pub fn add(&mut self, other: &ConstantCoverage) {
        self.things.iter_mut().zip(&other.things).for_each(|(own, count)| *own += count);
        self.widths.iter_mut().zip(&other.widths).for_each(|(own, count)| *own += count);
    }

    /// A start in a line, in which tokens start at the places given, and what is read there.
    pub fn read(&mut self, line: &[u8], start: u64, tokens: &[bool], [found, _, _, width, after]: [u64; 5]) {
        let length = line.len() as u64;
        self.things[EMPTY] += u64::from(length == 0);
        self.things[AT_THE_END] += u64::from(start == length);
        self.things[PAST_THE_END] += u64::from(start > length);
        self.things[FAR] += u64::from(start >= 1 << 32);
        if start >= length {
            return;
        }
        let (start, after) = (start as usize, after as usize);
        if found == 0 {
            self.things[NONE_INSIDE] += u64::from(!tokens[start]);
            if let Some(place) = fault(&line[start..token_end(line, start)]) {
                self.things[place] += 1;
            }
            return;
        }
        self.widths[width as usize] += 1;
        self.things[match line[start] {
            b'\'' => BINARY,
            b'#' => OCTAL,
            _ => DECIMAL,
        }] += 1;
        self.things[FOUND_INSIDE] += u64::from(!tokens[start]);
        self.things[TO_THE_END] += u64::from(after == line.len());
        self.things[ODD_BYTE] += u64::from(line.get(after).is_some_and(|byte| !(32..=126).contains(byte)));
        self.things[LONG_LINE] += u64::from(start >= 200);
    }

    fn counts(&self) -> impl Iterator<Item = (u64, String)> + '_ {
        let things = self.things.iter().zip(THINGS).map(|(count, name)| (*count, name.to_string()));
        things.chain((1..=16).map(|width| (self.widths[width], format!("a constant of width {} read", width))))
    }

    pub fn missing(&self) -> Vec<String> {
        self.counts().filter(|(count, _)| *count == 0).map(|(_, name)| name).collect()
    }

    pub fn print(&self) {
        self.counts().for_each(|(count, name)| println!("{:>12}  {}", count, name));
    }

    /// How many things are counted here.
    pub fn things() -> usize {
        THINGS.len() + 16
    }
}

/// Why a token that begins like a constant is none.
fn fault(token: &[u8]) -> Option<usize> {
    let behind = token.iter().find(|byte| !byte.is_ascii_digit());
    match (token[0], token.len()) {
        (b'\'' | b'#', 1) => Some(NO_DIGITS),
        (b'\'', 18) => Some(BINARY_17),
        (b'#', 7) => Some(OCTAL_6),
        (first, _) if !first.is_ascii_digit() => None,
        (first, _) => Some(match behind {
            Some(b'.') => DOT,
            Some(_) => LETTER,
            None if first == b'0' => LEADING_ZERO,
            None => ABOVE,
        }),
    }
}
