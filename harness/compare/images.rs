//! Random memories dense with code that changes itself, and states to start them from.

use crate::random::Random;

/// What the emulator is called with.
#[derive(Clone)]
pub struct Start {
    pub memory: Vec<u16>,
    pub registers: [u16; 6],
    pub budget: u64,
}

/// An instruction of ops 0 to 5, often indirect, often through an auto-index pointer, mostly near by.
fn memory_reference(random: &mut Random) -> u16 {
    let op = *random.pick(&[0, 1, 1, 2, 2, 3, 3, 4, 5, 5]);
    let indirect = random.once_in(3);
    let (page, address) = if indirect && random.once_in(2) {
        (0, random.between(0o7, 0o20) as u16)
    } else {
        (random.bits(1), random.bits(7))
    };
    op << 9 | u16::from(indirect) << 8 | page << 7 | address
}

fn operate(random: &mut Random) -> u16 {
    match random.below(8) {
        0 | 1 | 2 | 3 => 0o7000 | random.bits(8),
        4 | 5 | 6 => {
            let halt = if random.once_in(12) { 0o2 } else { 0 };
            0o7400 | random.bits(8) & 0o374 | halt
        }
        _ => 0o7401 | random.bits(8),
    }
}

/// A word of code.
pub fn instruction(random: &mut Random) -> u16 {
    match random.below(16) {
        0..=8 => memory_reference(random),
        9..=13 => operate(random),
        14 => *random.pick(&[0o6001, 0o6002, 0o6001, 0o6000, 0o6003, 0o6011, 0o6201, 0o6777]),
        _ => random.bits(12),
    }
}

/// 4,096 words: code, or code with pointers into it, or anything, or mostly zeros.
pub fn memory(random: &mut Random) -> Vec<u16> {
    let style = random.below(8);
    let mut words: Vec<u16> = match style {
        0 => (0..4096).map(|_| random.bits(12)).collect(),
        1 => vec![*random.pick(&[0, 0o7000, 0o7777, 0o2200, 0o6001]); 4096],
        _ => (0..4096).map(|_| instruction(random)).collect(),
    };
    if style == 1 {
        for _ in 0..600 {
            let place = random.below(4096);
            words[place] = instruction(random);
        }
    }
    if !random.once_in(4) {
        for pointer in 0o7..=0o20 {
            let anywhere = random.bits(12);
            words[pointer] = *random.pick(&[anywhere, anywhere, 0o7777, 0o7776, 0o7, 0o10, 0o17, 0o200]);
        }
    }
    words
}

/// Fitting machine registers; RUN is 1 nearly always, PC often at an edge.
pub fn machine(random: &mut Random) -> [u16; 6] {
    let edge = *random.pick(&[0, 1, 0o7, 0o177, 0o200, 0o377, 0o7600, 0o7776, 0o7777]);
    let pc = if random.once_in(3) { edge } else { random.bits(12) };
    let run = u16::from(!random.once_in(24));
    [random.bits(13), pc, run, random.bits(1), random.bits(1), random.bits(12)]
}

/// Mostly a few steps, at which nothing can be covered up, and now and then thousands.
pub fn budget(random: &mut Random) -> u64 {
    let most = match random.below(4000) {
        0 => return 1_000_000,
        1..=900 => 3,
        901..=2900 => 60,
        2901..=3900 => 1_000,
        _ => 20_000,
    };
    random.between(0, most) as u64
}

pub fn start(random: &mut Random) -> Start {
    Start { memory: memory(random), registers: machine(random), budget: budget(random) }
}

/// One step of one instruction word, from any state that fits.
pub fn one_word(random: &mut Random, word: u16) -> Start {
    let mut memory = vec![random.bits(12); 4096];
    for _ in 0..200 {
        memory[random.below(4096)] = random.bits(12);
    }
    let mut registers = machine(random);
    registers[0] = *random.pick(&[registers[0], registers[0] & 0o10000, 0o7777, 0o17777]);
    registers[2] = 1;
    memory[registers[1] as usize] = word;
    Start { memory, registers, budget: 1 }
}
