//! The tokens of an expression or destination.

use crate::constants::{constant, token_end};
use crate::lines::in_run;

#[derive(Clone, Copy, PartialEq, Eq, Debug)]
pub enum Token<'a> {
    /// A run of letters, digits and dots.
    Run(&'a [u8]),
    /// A constant with its mark.
    Constant { value: u16, width: u8 },
    /// Any other character.
    Mark(u8),
}

/// The tokens of a field, or `None` if spaces stand at its ends or a marked constant is outside the rules.
pub fn tokens(field: &[u8]) -> Option<Vec<Token<'_>>> {
    if field.first() == Some(&b' ') || field.last() == Some(&b' ') {
        return None;
    }
    let mut found = Vec::new();
    let mut at = 0;
    while at < field.len() {
        let start = at;
        at = token_end(field, start);
        match field[start] {
            b' ' => {}
            b'\'' | b'#' => {
                let (value, width) = constant(&field[start..at])?;
                found.push(Token::Constant { value, width });
            }
            byte if in_run(byte) => found.push(Token::Run(&field[start..at])),
            byte => found.push(Token::Mark(byte)),
        }
    }
    Some(found)
}
