//! Images with devices: each of the eight words from set-up states, and random images dense with them. Nothing is typed; see SIMH.md for what is compared.

use crate::images::{comparable as without_devices, random_image, Image};
use crate::random::Random;

/// KSF, KCC, KRS, KRB, TSF, TCF, TPC, TLS.
pub const EIGHT: [u16; 8] = [0o6031, 0o6032, 0o6034, 0o6036, 0o6041, 0o6042, 0o6044, 0o6046];

/// Words of the two devices that have no effect in either machine.
const IDLE: [u16; 4] = [0o6033, 0o6037, 0o6043, 0o6047];

/// Whether document 02 and SIMH's machine are meant to do the same at this word, devices and all.
pub fn comparable(word: u16) -> bool {
    EIGHT.contains(&word) || IDLE.contains(&word) || without_devices(word)
}

/// Registers of the devices without a mark, which SIMH cannot be given.
fn devices(random: &mut Random) -> [u16; 5] {
    [random.bits(8), random.bits(1), random.bits(1), random.bits(8), 0]
}

/// A random image in which every third word is a device's.
pub fn device_image(random: &mut Random, name: String) -> Image {
    let mut image = random_image(random, name);
    for at in (0..4096).filter(|at| !(0o7..=0o20).contains(at)) {
        if random.once_in(3) {
            let of: &[u16] = if random.once_in(8) { &IDLE } else { &EIGHT };
            image.memory[at] = *random.pick(of);
        }
    }
    image.devices = Some(devices(random));
    image
}

/// One to three steps from one of the eight words.
pub fn word_image(random: &mut Random, word: u16, number: usize) -> Image {
    let mut image = device_image(random, format!("device{:o}.{}", word, number));
    image.memory[image.pc as usize] = word;
    image.budgets = vec![random.between(1, 3) as u64];
    image
}
