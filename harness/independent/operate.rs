//! Op 7: its three groups.

use crate::machine::{Machine, WORD};
use crate::watch::{Event, Watch};

/// Bit n of an instruction, bit 0 the leftmost of 12.
#[inline(always)]
pub fn bit(i: u16, n: u32) -> bool {
    i >> (11 - n) & 1 == 1
}

#[inline(always)]
pub fn operate<W: Watch>(machine: &mut Machine, i: u16, watch: &mut W) {
    if !bit(i, 3) {
        change(machine, i);
    } else if !bit(i, 11) {
        skip_or_halt(machine, i, watch);
    } else if bit(i, 4) {
        machine.set_ac(0);
    }
}

/// Bit 3 = 0: clear, complement, add, rotate.
#[inline(always)]
fn change(machine: &mut Machine, i: u16) {
    let mut lac = machine.lac;
    if bit(i, 4) {
        lac &= 0o10000;
    }
    if bit(i, 5) {
        lac &= WORD;
    }
    if bit(i, 6) {
        lac ^= WORD;
    }
    if bit(i, 7) {
        lac ^= 0o10000;
    }
    if bit(i, 11) {
        lac = (lac + 1) & 0o17777;
    }
    let places = if bit(i, 10) { 2 } else { 1 };
    if bit(i, 9) {
        lac = (lac << places | lac >> (13 - places)) & 0o17777;
    }
    if bit(i, 8) {
        lac = (lac >> places | lac << (13 - places)) & 0o17777;
    }
    machine.lac = lac;
}

/// Bit 3 = 1, bit 11 = 0: first the skip, then AC and RUN.
#[inline(always)]
fn skip_or_halt<W: Watch>(machine: &mut Machine, i: u16, watch: &mut W) {
    let negative = machine.ac() >> 11 == 1;
    let zero = machine.ac() == 0;
    let link = machine.link() == 1;
    let skips = if bit(i, 8) {
        // a condition that is not selected doesn't count
        (!bit(i, 5) || !negative) && (!bit(i, 6) || !zero) && (!bit(i, 7) || !link)
    } else {
        bit(i, 5) && negative || bit(i, 6) && zero || bit(i, 7) && link
    };
    if skips {
        watch.saw(Event::Skipped);
        machine.skip();
    }
    if bit(i, 4) {
        machine.set_ac(0);
    }
    if bit(i, 9) {
        machine.lac |= machine.switches;
    }
    if bit(i, 10) {
        machine.run = 0;
    }
}
