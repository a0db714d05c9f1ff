//! Inputs for the programs: images for `listing`, questions (images, registers, budgets) for `explain`, about half of them damaged.

use crate::images;
use crate::random::Random;
use independent::devices::DEVICE_REGISTERS;

/// Lines that are no line of an image, or break the one that they are put into.
const UNFIT_WORDS: [&[u8]; 15] = [
    b"\n", b"0200\t7300", b"0200 7300\n", b"200\t7300\n", b"0200\t8300\n", b"0200\t73000\n", b"\t\n", b"0200\t7300\r\n", b"0200\t\t7300\n",
    b"02000\t7300\n", b"\0", b"0209\t7300\n", b" 0200\t7300\n", b"0200\t7300\n0", b"0200\t7300\t0001\n",
];
/// Lines that are none of a question, lines that explain prints among them.
const UNFIT_LINES: [&[u8]; 55] = [
    b"LAC\t20000\n", b"LAC\t7777\n", b"LAC\t000000\n", b"LAC\t0000 \n", b"LAC 00000\n", b"LAC\t\n", b"LAC\n", b"lac\t00000\n", b"LAC\t00008\n",
    b"PC\t00200\n", b"PC\t200\n", b"PC\t0200\t0\n", b"RUN\t2\n", b"RUN\t01\n", b"RUN\t\t1\n", b"INTERRUPT.ENABLE\t2\n", b"INTERRUPT.ENABLE\t7\n",
    b"INTERRUPT.REQUEST\t8\n", b"INTERRUPT.REQUEST\t000001\n", b"INTERRUPT.REQUEST\t0000001\n", b"SWITCHES\t777\n", b"SWITCHES\t10000\n",
    b"budget\t1000001\n", b"budget\t9999999\n", b"budget\t00000016\n", b"budget\t\n", b"budget\n", b"budget\t-1\n", b"budget\t1f\n", b"budget\t 1\n",
    b"Budget\t16\n", b"budget\t16\t\n", b"end\t4\thalted\n", b"last\t0203\t7402\tHLT\n", b"word\t0250\t0000\t1234\n", b"i\t7402\n", b"last.pc\t0203\n",
    b"skip\t0\n", b"at\topr\t35\n", b"1\tdo\t1\ti\tM[PC]\n", b"KEY.BYTE\t400\n", b"KEY.BYTE\t0000\n", b"KEYBOARD.FLAG\t2\n", b"PRINTER.FLAG\t01\n",
    b"PRINT.BYTE\t77\n", b"PRINT.MARK\t\n", b"PRINT.MARKS\t0\n", b"input\t\n", b"input\n", b"input\t400\n", b"input\t101 \n", b"input\t101  102\n", b"input\t 101\n",
    b"input\t101,102\n", b"read\t0\n",
];

/// How many unfit lines there are.
pub const UNFIT: usize = UNFIT_WORDS.len() + UNFIT_LINES.len();

fn word(address: u16, word: u16) -> String {
    format!("{:04o}\t{:04o}\n", address, word)
}

/// Code from an address on, and some elsewhere.
fn code(random: &mut Random, from: u16, lines: usize) -> Vec<String> {
    (0..lines)
        .map(|n| {
            let address = if random.once_in(3) { random.bits(12) } else { (from + n as u16 % 32) & 0o7777 };
            word(address, images::instruction(random))
        })
        .collect()
}

/// Words of the devices soon after `from`.
fn device_code(random: &mut Random, from: u16) -> Vec<String> {
    (0..random.below(12)).map(|n| word((from + n as u16) & 0o7777, *random.pick(&[0o6031, 0o6032, 0o6034, 0o6036, 0o6041, 0o6042, 0o6044, 0o6046]))).collect()
}

/// An instruction soon after `from` that rewrites itself or the next one: what is shown and executed is the word that is there when it is fetched.
fn rewriter(random: &mut Random, from: u16) -> String {
    let place = (from + random.bits(2)) & 0o7777;
    let rewritten = place + random.bits(1);
    let op = *random.pick(&[2, 3]);
    word(place, op << 9 | 0o200 | rewritten & 0o177)
}

/// An image for the listing.
pub fn image(random: &mut Random) -> Vec<u8> {
    let count = *random.pick(&[0, 1, 5, 16, 40, 300]);
    let mut lines = code(random, 0o200, count);
    if random.once_in(4) {
        lines.push(rewriter(random, 0o200));
    }
    damaged(random, lines, &UNFIT_WORDS)
}

/// Lines of machine registers, as many as the state has and some of them twice; the one that holds comes last.
fn registers(random: &mut Random, values: [u16; 6]) -> Vec<String> {
    let [lac, pc, run, enable, request, switches] = values;
    let mut lines = Vec::new();
    if random.once_in(6) {
        lines.push(format!("PC\t{:04o}\n", random.bits(12)));
        lines.push(format!("LAC\t{:05o}\n", random.bits(13)));
    }
    lines.extend([format!("LAC\t{:05o}\n", lac), format!("PC\t{:04o}\n", pc), format!("RUN\t{}\n", run), format!("SWITCHES\t{:04o}\n", switches)]);
    lines.extend([format!("INTERRUPT.ENABLE\t{}\n", enable), format!("INTERRUPT.REQUEST\t{}\n", request)]);
    lines
}

/// Lines of the devices: registers, and the input, which may be given twice.
fn devices(random: &mut Random) -> Vec<String> {
    let mut lines = Vec::new();
    for (name, width) in DEVICE_REGISTERS {
        if random.once_in(3) {
            lines.push(format!("{}\t{:0digits$o}\n", String::from_utf8_lossy(name), random.bits(width), digits = (usize::from(width) + 2) / 3));
        }
    }
    for _ in 0..random.below(3) {
        let count = *random.pick(&[1, 1, 2, 5, 64]);
        let bytes: Vec<String> = (0..count).map(|_| format!("{:03o}", random.bits(8))).collect();
        lines.push(format!("input\t{}\n", bytes.join(" ")));
    }
    lines
}

fn budget(random: &mut Random) -> String {
    let steps = match random.below(1000) {
        0 => 1_000_000,
        1..=20 => random.between(0, 20_000),
        21..=300 => random.between(0, 300),
        _ => random.between(0, 12),
    };
    match random.below(4) {
        0 => format!("budget\t{:07}\n", steps),
        1 => format!("budget\t{:03}\n", steps),
        _ => format!("budget\t{}\n", steps),
    }
}

/// One step of an instruction word, from any state that fits.
pub fn one_word(random: &mut Random, i: u16) -> Vec<u8> {
    let mut state = images::one_word(random, i);
    if random.once_in(3) {
        // an interrupt: one more word may change
        state.registers[3..5].fill(1);
    }
    let pc = state.registers[1];
    let page = if i & 0o200 != 0 { pc & 0o7600 } else { 0 };
    let first = page | i & 0o177;
    let pointer = if random.once_in(4) { 0o7777 } else { random.bits(12) };
    let mut lines = vec![word((pointer + 1) & 0o7777, random.bits(12)), word(pointer, random.bits(12)), word(first, pointer), word(pc, i)];
    lines.extend(registers(random, state.registers));
    if i >> 9 == 6 || random.once_in(8) {
        lines.extend(devices(random));
    }
    lines.push("budget\t1\n".to_string());
    lines.concat().into_bytes()
}

/// The lines of a question of any kind.
fn lines_of_question(random: &mut Random) -> Vec<String> {
    let state = images::machine(random);
    let mut from = 0o200;
    let mut lines = Vec::new();
    if random.once_in(2) {
        from = state[1];
        lines = registers(random, state);
        if random.once_in(3) {
            let kept = random.below(lines.len());
            lines.truncate(kept);
        }
    }
    if random.once_in(20) {
        lines.extend(images::memory(random).iter().enumerate().map(|(address, i)| word(address as u16, *i)));
    } else {
        let count = *random.pick(&[0, 1, 5, 16, 40, 300]);
        lines.extend(code(random, from, count));
    }
    if random.once_in(3) {
        lines.push(rewriter(random, from));
    }
    for _ in 0..random.below(3) {
        lines.push(budget(random));
    }
    if random.once_in(3) {
        lines.extend(device_code(random, from));
        lines.extend(devices(random));
        if random.once_in(16) {
            // a byte too many
            lines.push(format!("input\t{}\n", vec!["101"; 65].join(" ")));
        }
    }
    if random.once_in(2) {
        let turned = random.below(lines.len() + 1);
        lines.rotate_left(turned);
    }
    lines
}

/// A question of any kind, or a damaged one.
pub fn question(random: &mut Random) -> Vec<u8> {
    let lines = lines_of_question(random);
    let unfit: &[&[u8]] = if random.once_in(3) { &UNFIT_WORDS } else { &UNFIT_LINES };
    damaged(random, lines, unfit)
}

/// A question with an unfit line.
pub fn unfit_question(random: &mut Random, number: usize) -> Vec<u8> {
    let lines = lines_of_question(random);
    broken(random, lines, if number < UNFIT_WORDS.len() { UNFIT_WORDS[number] } else { UNFIT_LINES[number - UNFIT_WORDS.len()] })
}

/// The lines as a text, with an unfit one between them.
fn broken(random: &mut Random, mut lines: Vec<String>, unfit: &[u8]) -> Vec<u8> {
    let at = random.below(lines.len() + 1);
    let below = lines.split_off(at).concat();
    [lines.concat().as_bytes(), unfit, below.as_bytes()].concat()
}

/// The lines as a text: with an unfit one between them, or a byte changed, or cut short, or as they are.
fn damaged(random: &mut Random, lines: Vec<String>, unfit: &[&[u8]]) -> Vec<u8> {
    if random.once_in(3) {
        let line: &[u8] = *random.pick(unfit);
        return broken(random, lines, line);
    }
    let mut text = lines.concat().into_bytes();
    if random.once_in(4) && !text.is_empty() {
        let at = random.below(text.len());
        text[at] = *random.pick(b"0178\t\n aR");
    } else if random.once_in(8) {
        let length = random.below(text.len() + 1);
        text.truncate(length);
    }
    text
}
