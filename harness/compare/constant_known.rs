//! Lines whose constants are worked out by hand from documents 01 and 02.

/// A line, and what stands at some of its starts.
#[derive(Clone)]
pub struct KnownLine {
    pub line: Vec<u8>,
    /// A start, and what guavachisel_read_constant gives there.
    pub answers: Vec<(u64, [u64; 5])>,
}

/// Value, width and the place after.
type Constant = (u64, u64, u64);

const FAR: [u64; 4] = [1 << 32, 1 << 63, u64::MAX - 1, u64::MAX];

/// A line, and the constant or none at starts of it. At its end and past it there is none.
fn add(all: &mut Vec<KnownLine>, line: &[u8], answers: &[(u64, Option<Constant>)]) {
    let told = |constant: Option<Constant>| constant.map_or([0; 5], |(value, width, after)| [1, value, (1 << width) - 1, width, after]);
    let mut answers: Vec<(u64, [u64; 5])> = answers.iter().map(|(start, constant)| (*start, told(*constant))).collect();
    let length = line.len() as u64;
    answers.extend((length..length + 4).chain(FAR).map(|start| (start, [0; 5])));
    all.push(KnownLine { line: line.to_vec(), answers });
}

pub fn lines() -> Vec<KnownLine> {
    let mut all = Vec::new();
    starts(&mut all);
    runs(&mut all);
    digits(&mut all);
    widths(&mut all);
    bytes(&mut all);
    all
}

/// A start inside a token: only what stands from there on counts.
fn starts(all: &mut Vec<KnownLine>) {
    add(all, b"", &[]);
    add(all, b"a15", &[(0, None), (1, Some((15, 5, 3))), (2, Some((5, 4, 3)))]);
    add(all, b"'101", &[(0, Some((5, 3, 4))), (1, Some((101, 8, 4))), (2, None), (3, Some((1, 2, 4)))]);
    add(all, b"'12", &[(0, Some((1, 1, 2))), (1, Some((12, 5, 3))), (2, Some((2, 3, 3)))]);
    add(all, b"#18", &[(0, Some((1, 3, 2))), (1, Some((18, 6, 3))), (2, Some((8, 5, 3)))]);
    add(all, b"a 5", &[(0, None), (1, None), (2, Some((5, 4, 3)))]);
    let far = [vec![b' '; 300], b"15 #17".to_vec()].concat();
    add(all, &far, &[(0, None), (299, None), (300, Some((15, 5, 302))), (301, Some((5, 4, 302))), (302, None), (303, Some((15, 6, 306)))]);
}

/// Where a constant ends. A decimal is the whole run of letters, digits and dots.
fn runs(all: &mut Vec<KnownLine>) {
    add(all, b"12ab", &[(0, None), (1, None), (2, None), (3, None)]);
    add(all, b"12.", &[(0, None), (1, None), (2, None)]);
    add(all, b".5", &[(0, None), (1, Some((5, 4, 2)))]);
    add(all, b"15Eql a", &[(0, None), (1, None), (2, None), (5, None), (6, None)]);
    add(all, b"'101Eql'1", &[(0, Some((5, 3, 4))), (1, None), (3, None), (4, None), (7, Some((1, 1, 9))), (8, Some((1, 2, 9)))]);
    add(all, b"#12.", &[(0, Some((10, 6, 3))), (1, None), (2, None), (3, None)]);
    add(all, b"15'1#7", &[(0, Some((15, 5, 2))), (1, Some((5, 4, 2))), (2, Some((1, 1, 4))), (3, Some((1, 2, 4))), (4, Some((7, 3, 6))), (5, Some((7, 4, 6)))]);
    for end in [b'\t', b'\n', b' ', 0, 255] {
        add(all, &[b'1', b'2', end, b'3'], &[(0, Some((12, 5, 2))), (1, Some((2, 3, 2))), (2, None), (3, Some((3, 3, 4)))]);
    }
}

/// Digits too few and too many; zeros in front.
fn digits(all: &mut Vec<KnownLine>) {
    for mark in [b'\'', b'#'] {
        add(all, &[mark], &[(0, None)]);
        add(all, &[mark, mark, b'1'], &[(0, None), (1, Some((1, if mark == b'#' { 3 } else { 1 }, 3)))]);
        add(all, &[mark, b' ', b'1'], &[(0, None)]);
        add(all, &[mark, b'8'], &[(0, None), (1, Some((8, 5, 2)))]);
        add(all, &[mark, b'a'], &[(0, None)]);
    }
    add(all, b"'0000000000000000", &[(0, Some((0, 16, 17))), (1, None), (16, Some((0, 2, 17)))]);
    add(all, b"'1111111111111111", &[(0, Some((65535, 16, 17))), (1, None), (11, None), (12, Some((11111, 15, 17)))]);
    add(all, b"'11111111111111111", &[(0, None), (1, None), (13, Some((11111, 15, 18)))]);
    add(all, b"'00000000000000001", &[(0, None), (1, None), (16, None), (17, Some((1, 2, 18)))]);
    add(all, b"#77777", &[(0, Some((32767, 15, 6))), (1, None), (2, Some((7777, 14, 6)))]);
    add(all, b"#777777", &[(0, None), (1, None), (2, None), (3, Some((7777, 14, 7)))]);
    add(all, b"#000001", &[(0, None), (1, None), (6, Some((1, 2, 7)))]);
    add(all, b"#00017", &[(0, Some((15, 15, 6))), (3, None), (4, Some((17, 6, 6)))]);
    add(all, b"#00000", &[(0, Some((0, 15, 6)))]);
    add(all, b"007", &[(0, None), (1, None), (2, Some((7, 4, 3)))]);
    add(all, b"00", &[(0, None), (1, Some((0, 2, 2)))]);
    add(all, b"32767", &[(0, Some((32767, 16, 5))), (1, Some((2767, 13, 5)))]);
    add(all, b"32768", &[(0, None), (1, Some((2768, 13, 5)))]);
    for above in ["65535", "65536", "65551", "99999", "032767", "327670", "4294967297", "18446744073709551617", "99999999999999999999999999999999"] {
        add(all, above.as_bytes(), &[(0, None)]);
    }
}

/// Every width of each kind.
fn widths(all: &mut Vec<KnownLine>) {
    add(all, b"0", &[(0, Some((0, 2, 1)))]);
    add(all, b"1", &[(0, Some((1, 2, 1)))]);
    add(all, b"15", &[(0, Some((15, 5, 2)))]);
    for bits in 1..=15 {
        let most: u64 = (1 << bits) - 1;
        let text = most.to_string();
        add(all, text.as_bytes(), &[(0, Some((most, bits + 1, text.len() as u64)))]);
    }
    for bits in 1..=14 {
        let least: u64 = 1 << bits;
        let text = least.to_string();
        add(all, text.as_bytes(), &[(0, Some((least, bits + 2, text.len() as u64)))]);
    }
    for count in 1..=16 {
        add(all, &[vec![b'\''], vec![b'1'; count as usize]].concat(), &[(0, Some(((1 << count) - 1, count, count + 1)))]);
    }
    for count in 1..=5 {
        add(all, &[vec![b'#'], vec![b'7'; count as usize]].concat(), &[(0, Some(((1 << (3 * count)) - 1, 3 * count, count + 1)))]);
    }
}

/// Each byte at the start, and behind a constant of each kind.
fn bytes(all: &mut Vec<KnownLine>) {
    let letters = b".ABCDEFGHIJKLMNOPQRSTUVWXYZabcdefghijklmnopqrstuvwxyz";
    let tens = [90, 91, 92, 93, 94, 95, 96, 97, 98, 99];
    for byte in 0..=255 {
        let digit = b"0123456789".iter().position(|digit| *digit == byte).map(|n| n as u64);
        let alone = digit.map(|n| (n, [2, 2, 3, 3, 4, 4, 4, 4, 5, 5][n as usize], 1));
        add(all, &[byte], &[(0, alone)]);
        let decimal = match digit {
            Some(n) => Some((tens[n as usize], 8, 2)),
            None if letters.contains(&byte) => None,
            None => Some((9, 5, 1)),
        };
        add(all, &[b'9', byte], &[(0, decimal)]);
        let binary = match digit {
            Some(n) if n < 2 => (2 + n, 2, 3),
            _ => (1, 1, 2),
        };
        add(all, &[b'\'', b'1', byte], &[(0, Some(binary))]);
        let octal = match digit {
            Some(n) if n < 8 => (8 + n, 6, 3),
            _ => (1, 3, 2),
        };
        add(all, &[b'#', b'1', byte], &[(0, Some(octal))]);
    }
}
