//! Images for both machines: binary tapes read and written, random images dense with code, and words of op 7 with an interrupt pending.

use crate::random::Random;

/// An image with the state to start from.
pub struct Image {
    pub name: String,
    pub memory: Vec<u16>,
    pub lac: u16,
    pub pc: u16,
    pub switches: u16,
    pub interrupt_enable: u16,
    /// Without devices it stays as it is: SIMH's request of a device that no compared word speaks to.
    pub interrupt_request: u16,
    /// KEY.BYTE, KEYBOARD.FLAG, PRINTER.FLAG, PRINT.BYTE, PRINT.MARK of a machine with devices.
    pub devices: Option<[u16; 5]>,
    /// Steps to compare after.
    pub budgets: Vec<u64>,
    /// Words that the program is to leave: address and word.
    pub expected: Vec<(u16, u16)>,
}

/// A binary tape of all 4,096 words: leader, an origin, two frames a word, the checksum, trailer.
pub fn tape(memory: &[u16]) -> Vec<u8> {
    let mut frames = vec![0o100, 0];
    for word in memory {
        frames.extend([(word >> 6) as u8, (word & 0o77) as u8]);
    }
    let sum = frames.iter().fold(0u16, |sum, frame| sum.wrapping_add(u16::from(*frame))) & 0o7777;
    let mut bytes = vec![0o200; 8];
    bytes.extend(frames);
    bytes.extend([(sum >> 6) as u8, (sum & 0o77) as u8]);
    bytes.extend(vec![0o200; 8]);
    bytes
}

/// The memory of a binary tape as palbart writes it; other words are 0.
pub fn from_tape(bytes: &[u8]) -> Vec<u16> {
    let frames: Vec<u16> = bytes.iter().filter(|b| **b < 0o200).map(|b| u16::from(*b)).collect();
    let mut memory = vec![0; 4096];
    let mut address = 0usize;
    let words = frames.len() / 2 - 1; // the last is the checksum
    for pair in frames.chunks(2).take(words) {
        let word = (pair[0] & 0o77) << 6 | pair[1];
        if pair[0] & 0o100 != 0 {
            address = word as usize;
        } else {
            memory[address % 4096] = word;
            address += 1;
        }
    }
    memory
}

/// A program's words to be left, from lines `/ EXPECT address word`.
pub fn expectations(source: &str) -> Vec<(u16, u16)> {
    let number = |word: Option<&str>| word.and_then(|w| u16::from_str_radix(w, 8).ok());
    source
        .lines()
        .filter_map(|line| line.strip_prefix("/ EXPECT "))
        .filter_map(|rest| {
            let mut words = rest.split_whitespace();
            Some((number(words.next())?, number(words.next())?))
        })
        .collect()
}

/// 6001, which sets INTERRUPT.ENABLE, and 6002, which clears it.
const ION: u16 = 0o6001;
pub const IOF: u16 = 0o6002;

/// Code that both machines are meant to run alike; `comparable` is asked again at each step.
fn instruction(random: &mut Random) -> u16 {
    loop {
        let word = match random.below(16) {
            0..=9 => {
                let word = (random.below(6) as u16) << 9 | random.bits(8);
                if random.once_in(3) { word & 0o7000 | 0o400 | random.between(0o7, 0o20) as u16 } else { word }
            }
            10..=12 => 0o7000 | random.bits(8),
            13 => *random.pick(&[ION, ION, IOF]),
            _ => 0o7400 | random.bits(8) & 0o374 | if random.once_in(12) { 2 } else { 0 },
        };
        if comparable(word) {
            return word;
        }
    }
}

pub fn random_image(random: &mut Random, name: String) -> Image {
    let mut memory: Vec<u16> = (0..4096).map(|_| instruction(random)).collect();
    for pointer in 0o7..=0o20 {
        let anywhere = random.bits(12);
        memory[pointer] = *random.pick(&[anywhere, anywhere, 0o7777, 0o7, 0o17]);
    }
    let pc = if random.once_in(3) { *random.pick(&[0, 0o177, 0o377, 0o7776, 0o7777]) } else { random.bits(12) };
    let most = *random.pick(&[1, 2, 5, 20, 100, 1000, 10_000]);
    let budgets = vec![random.between(1, most) as u64];
    let (lac, switches) = (random.bits(13), random.bits(12));
    let (interrupt_enable, interrupt_request) = (random.bits(1), u16::from(random.once_in(3)));
    Image { name, memory, lac, pc, switches, interrupt_enable, interrupt_request, devices: None, budgets, expected: Vec::new() }
}

/// One word of the second group of op 7, with INTERRUPT.ENABLE and INTERRUPT.REQUEST both 1, or after the 6001 that enables.
pub fn pending_image(random: &mut Random, word: u16, enabled_before: bool) -> Image {
    let mut memory: Vec<u16> = (0..4096).map(|_| instruction(random)).collect();
    let pc = random.between(2, 0o7776) as u16;
    let first = if enabled_before { word } else { ION };
    memory[pc as usize] = first;
    memory[pc as usize + 1] = word;
    memory[1] = 0o7000;
    let name = format!("pending{:o}{}", word, u16::from(enabled_before));
    let (lac, switches) = (random.bits(13), random.bits(12));
    let budgets = vec![if enabled_before { 1 } else { 2 }];
    Image { name, memory, lac, pc, switches, interrupt_enable: u16::from(enabled_before), interrupt_request: 1, devices: None, budgets, expected: Vec::new() }
}

/// The words of the second group of op 7, halts and others.
pub fn second_group() -> impl Iterator<Item = u16> {
    (0o7400..=0o7776).step_by(2)
}

/// Whether document 01 and SIMH's machine are meant to do the same at this word: see harness/SIMH.md.
pub fn comparable(word: u16) -> bool {
    let group_1 = word & 0o7400 == 0o7000;
    let group_3 = word & 0o7401 == 0o7401;
    let iot = word >> 9 == 6;
    let swaps_bytes = group_1 && word & 0o16 == 0o2;
    let rotates_both = group_1 && word & 0o14 == 0o14;
    (!iot || word == ION || word == IOF) && !swaps_bytes && !rotates_both && (!group_3 || word & 0o376 == 0 || word & 0o376 == 0o200)
}
