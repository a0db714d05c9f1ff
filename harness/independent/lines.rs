//! A text's lines and fields, names and plain decimals: everything below the grammar of expressions.

/// The longest line, its LF aside.
pub const LINE_BYTES: usize = 200;
/// The longest name or label.
pub const NAME_BYTES: usize = 20;

/// A line of the text: its number from 1, and its bytes without the LF; `None` if the LF is missing.
pub struct Line<'a> {
    pub number: usize,
    pub bytes: Option<&'a [u8]>,
}

/// The lines of a text. What follows the last LF is a line without one; nothing there is no line.
pub fn lines(text: &[u8]) -> Vec<Line<'_>> {
    let mut found = Vec::new();
    let mut start = 0;
    while start < text.len() {
        let number = found.len() + 1;
        match text[start..].iter().position(|byte| *byte == b'\n') {
            None => {
                found.push(Line { number, bytes: None });
                break;
            }
            Some(length) => {
                found.push(Line { number, bytes: Some(&text[start..start + length]) });
                start += length + 1;
            }
        }
    }
    found
}

/// The fields of a line that keeps the rules for its bytes.
pub fn fields(line: &[u8]) -> Option<Vec<&[u8]>> {
    if line.len() > LINE_BYTES || !line.iter().all(|byte| (32..=126).contains(byte) || *byte == b'\t') {
        return None;
    }
    let parts: Vec<&[u8]> = line.split(|byte| *byte == b'\t').collect();
    if parts.iter().any(|part| part.is_empty()) {
        return None;
    }
    Some(parts)
}

/// Letters, digits and dots make up names, labels and plain decimals.
pub fn in_run(byte: u8) -> bool {
    byte.is_ascii_alphanumeric() || byte == b'.'
}

/// 1 to 20 letters, digits or dots, a letter first.
pub fn well_formed(name: &[u8]) -> bool {
    !name.is_empty() && name.len() <= NAME_BYTES && name[0].is_ascii_alphabetic() && name.iter().all(|byte| in_run(*byte))
}

/// A decimal without leading zeros, at most `limit`.
pub fn decimal(digits: &[u8], limit: u32) -> Option<u32> {
    if digits.is_empty() || digits.len() > 1 && digits[0] == b'0' {
        return None;
    }
    let mut value: u32 = 0;
    for digit in digits {
        if !digit.is_ascii_digit() {
            return None;
        }
        value = value * 10 + u32::from(digit - b'0');
        if value > limit {
            return None;
        }
    }
    Some(value)
}
