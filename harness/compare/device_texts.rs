//! Random descriptions with the five registers of the devices, in any order anywhere among the others, or with one of them lacking in name or width.

use crate::expressions::{destination, expression, spaced, Register};
use crate::random::Random;
use crate::texts::row;

const DEVICE_REGISTERS: [(&str, u8); 5] = [("KEY.BYTE", 8), ("KEYBOARD.FLAG", 1), ("PRINTER.FLAG", 1), ("PRINT.BYTE", 8), ("PRINT.MARK", 1)];
const NEAR_NAMES: [&str; 10] =
    ["KEY.BYTES", "KEY.BYT", "key.byte", "KEYBOARD.FLA", "KEYBOARD.FLAG.", "PRINTER.FLAg", "PRINTER", "PRINT.BYTE8", "PRINT.MARKS", "PRINT.MAR"];
/// Registers that a machine has beside them, for which nothing is done.
const OTHERS: [(&str, u8); 5] = [("INTERRUPT.REQUEST", 1), ("INTERRUPT.ENABLE", 1), ("LAC", 13), ("PC", 12), ("SWITCHES", 12)];

fn registers(random: &mut Random) -> Vec<Register> {
    let named = |(name, width): (&str, u8)| Register { name: name.to_string(), width };
    let mut all: Vec<Register> = DEVICE_REGISTERS.into_iter().map(named).collect();
    if random.once_in(3) {
        lack(random, &mut all);
    }
    all.push(named(("RUN", 1)));
    all.extend(OTHERS.into_iter().filter(|_| random.once_in(2)).map(named));
    for n in 0..random.below(17 - all.len()) {
        all.push(Register { name: format!("r{}", n), width: random.between(1, 16) as u8 });
    }
    for at in (1..all.len()).rev() {
        all.swap(at, random.below(at + 1));
    }
    all
}

/// One of the five is not there, has a name near its own, or another width.
fn lack(random: &mut Random, five: &mut Vec<Register>) {
    let which = random.below(5);
    match random.below(4) {
        0 => {
            five.remove(which);
        }
        1 => five[which].name = random.pick(&NEAR_NAMES).to_string(),
        _ => {
            let other = *random.pick(&[1, 2, 7, 8, 9, 16]);
            five[which].width = if other == five[which].width { 3 } else { other };
        }
    }
}

/// A row that writes one of the five, if that one is there.
fn device_row(random: &mut Random, registers: &[Register]) -> Option<String> {
    let (name, _) = *random.pick(&DEVICE_REGISTERS);
    let register = registers.iter().find(|r| r.name == name)?;
    let condition = if random.once_in(2) { vec!["1".to_string()] } else { expression(random, registers, 3, 2, 16) };
    let to = destination(random, std::slice::from_ref(register), 3, 2);
    let value = match name {
        "PRINT.MARK" if !random.once_in(3) => vec!["1".to_string()],
        "KEYBOARD.FLAG" if !random.once_in(3) => vec!["0".to_string()],
        _ => expression(random, registers, 5, 3, 16),
    };
    Some(format!("do\t{}\t{}\t{}", spaced(random, &condition), spaced(random, &to), spaced(random, &value)))
}

/// A description, nearly always accepted.
pub fn text(random: &mut Random) -> Vec<u8> {
    let registers = registers(random);
    let mut text = String::from("rows\t1\n");
    for register in &registers {
        text += &format!("reg\t{}\t{}\n", register.name, register.width);
    }
    for _ in 0..random.between(1, 12) {
        let of_devices = if random.once_in(3) { None } else { device_row(random, &registers) };
        text += &of_devices.unwrap_or_else(|| row(random, &registers, 8, ""));
        text.push('\n');
    }
    text.into_bytes()
}
