//! A line whose constants are read from every start, by the library and by the Rust side.

use crate::cases::unequal;
use crate::constant_known::KnownLine;
use crate::coverage::Coverage;
use crate::entries;
use independent::constants::token_end;
use independent::read_constant;

/// Every start of a line, its end, three past it, and some that are far past it, also where only some bits of them are kept.
fn starts(length: u64) -> impl Iterator<Item = u64> {
    let far = [1 << 8, 1 << 16, 1 << 31, 1 << 32, 1 << 63].into_iter().flat_map(|far| far..far + 3);
    (0..length + 4).chain(far).chain(u64::MAX - 2..=u64::MAX)
}

/// Whether a token starts at each place of a line.
fn token_starts(line: &[u8]) -> Vec<bool> {
    let mut found = vec![false; line.len()];
    let mut at = 0;
    while at < line.len() {
        found[at] = true;
        at = token_end(line, at);
    }
    found
}

pub fn read(line: &[u8], coverage: &mut Coverage) -> Option<String> {
    let tokens = token_starts(line);
    for start in starts(line.len() as u64) {
        let own = read_constant(line, start);
        coverage.constants.read(line, start, &tokens, own);
        let library = entries::read_constant(line, start);
        if library != own {
            return unequal(&format!("the constant at {} (found, value, matter, width, after)", start), library, own);
        }
    }
    None
}

/// The known answers, by both, then every start.
pub fn known(known: &KnownLine, coverage: &mut Coverage) -> Option<String> {
    for (start, answer) in &known.answers {
        for (side, given) in [("the Rust reader", read_constant(&known.line, *start)), ("the library", entries::read_constant(&known.line, *start))] {
            if given != *answer {
                return Some(format!("the constant at {} of \"{}\": {} gives {:?}, known is {:?}", start, known.line.escape_ascii(), side, given, answer));
            }
        }
    }
    read(&known.line, coverage)
}
