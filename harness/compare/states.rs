//! States that must be turned down: bad lengths, words, registers, budgets and row lists, one or several at once.

use crate::random::Random;

/// What a state is spoiled in.
pub struct State<'a> {
    pub memory: &'a mut Vec<u16>,
    pub registers: &'a mut [u16],
    /// Bits of each register place; 0 where there is no register.
    pub widths: &'a [u8],
    pub budget: &'a mut u64,
    pub rows: Option<&'a mut Vec<u8>>,
}

/// Spoils one to three things, in any order.
pub fn spoil(random: &mut Random, state: &mut State) {
    for _ in 0..random.between(1, 3) {
        match random.below(10) {
            0 => length(random, state.memory),
            1 | 2 | 3 => word(random, state.memory),
            4 | 5 | 6 => register(random, state),
            7 | 8 => *state.budget = *random.pick(&[1_000_001, 1_000_002, 1 << 20, 1 << 32, 1 << 63, (1 << 32) + 5, u64::MAX]),
            _ => {
                if let Some(rows) = &mut state.rows {
                    let places = *random.pick(&[0, 1, 64, 100, 126, 127]);
                    rows.truncate(places);
                }
            }
        }
    }
}

fn length(random: &mut Random, memory: &mut Vec<u16>) {
    let words = *random.pick(&[0, 1, 2, 2048, 4095, 4097, 4098, 5000, 8192]);
    memory.resize(words, 0o7402);
}

fn word(random: &mut Random, memory: &mut [u16]) {
    if memory.is_empty() {
        return;
    }
    let places = [0, memory.len() - 1, random.below(memory.len()), random.below(memory.len())];
    memory[*random.pick(&places)] = *random.pick(&[4096, 4097, 8191, 8192, 0x8000, 0xffff]);
}

/// A value one bit too wide, or anything in an unused place.
fn register(random: &mut Random, state: &mut State) {
    let place = random.below(state.registers.len());
    let width = state.widths.get(place).copied().unwrap_or(0);
    if width == 16 {
        return;
    }
    let wide = 1u16 << width;
    state.registers[place] = *random.pick(&[wide, wide | 1, 0x8000, 0xffff, wide | state.registers[place]]);
}
