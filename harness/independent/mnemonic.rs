//! An instruction as the handbook writes it.

use crate::memory_reference::first_address;
use crate::operate::bit;

const REFERENCES: [&str; 6] = ["AND", "TAD", "ISZ", "DCA", "JMS", "JMP"];

/// The words of keyboard and teleprinter.
const DEVICES: [(u16, &str); 8] =
    [(0o6031, "KSF"), (0o6032, "KCC"), (0o6034, "KRS"), (0o6036, "KRB"), (0o6041, "TSF"), (0o6042, "TCF"), (0o6044, "TPC"), (0o6046, "TLS")];

/// The instruction `i`, fetched at `pc`; the devices' words have names where there are devices.
pub fn mnemonic(pc: u16, i: u16, devices: bool) -> String {
    if let Some((_, name)) = DEVICES.iter().find(|(word, _)| devices && *word == i) {
        return name.to_string();
    }
    match i >> 9 {
        6 if i == 0o6001 => "ION".to_string(),
        6 if i == 0o6002 => "IOF".to_string(),
        6 => "IOT".to_string(),
        7 => operation(i),
        op => {
            let indirect = if bit(i, 3) { "I " } else { "" };
            format!("{} {}{:04o}", REFERENCES[op as usize], indirect, first_address(i, pc))
        }
    }
}

/// Op 7: what is selected, parted by spaces.
fn operation(i: u16) -> String {
    let words = if !bit(i, 3) {
        changes(i)
    } else if !bit(i, 11) {
        skips(i)
    } else {
        selected(i, &[(4, "CLA")])
    };
    if words.is_empty() { "NOP".to_string() } else { words.join(" ") }
}

fn selected(i: u16, names: &[(u32, &'static str)]) -> Vec<&'static str> {
    names.iter().filter(|(n, _)| bit(i, *n)).map(|(_, name)| *name).collect()
}

fn changes(i: u16) -> Vec<&'static str> {
    let rotations = if bit(i, 10) { [(9, "RTL"), (8, "RTR")] } else { [(9, "RAL"), (8, "RAR")] };
    let mut words = selected(i, &[(4, "CLA"), (5, "CLL"), (6, "CMA"), (7, "CML"), (11, "IAC")]);
    words.extend(selected(i, &rotations));
    words
}

fn skips(i: u16) -> Vec<&'static str> {
    let mut words = match (bit(i, 8), i & 0o160) {
        (false, _) => selected(i, &[(5, "SMA"), (6, "SZA"), (7, "SNL")]),
        (true, 0) => vec!["SKP"],
        (true, _) => selected(i, &[(5, "SPA"), (6, "SNA"), (7, "SZL")]),
    };
    words.extend(selected(i, &[(4, "CLA"), (9, "OSR"), (10, "HLT")]));
    words
}
