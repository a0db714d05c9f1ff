//! The address e, and ops 0 to 5, which work on the word there.

use crate::machine::{increased, store, word_at, Machine, Memory};
use crate::watch::{Event, Watch};

/// The page number and the page address, joined.
#[inline(always)]
pub fn first_address(i: u16, last_pc: u16) -> u16 {
    let own_page = i & 0o200 != 0;
    let page = if own_page { last_pc & 0o7600 } else { 0 };
    let page_address = i & 0o177;
    page | page_address
}

/// e of an instruction of ops 0 to 5. Auto-indexing may change a word on the way.
#[inline(always)]
fn effective_address<W: Watch>(memory: &mut Memory, i: u16, last_pc: u16, watch: &mut W) -> u16 {
    if i & 0o200 != 0 && last_pc & 0o177 == 0o177 {
        watch.saw(Event::PageEnd);
    }
    let first = first_address(i, last_pc);
    let indirect = i & 0o400 != 0;
    if !indirect {
        return first;
    }
    if (0o10..=0o17).contains(&first) {
        watch.saw(Event::AutoIndexed(first));
        let word = increased(word_at(memory, first));
        store(memory, first, word, watch);
    }
    word_at(memory, first)
}

/// Ops 0 to 5.
#[inline(always)]
pub fn memory_reference<W: Watch>(memory: &mut Memory, machine: &mut Machine, i: u16, last_pc: u16, watch: &mut W) {
    let e = effective_address(memory, i, last_pc, watch);
    match i >> 9 {
        0 => machine.set_ac(machine.ac() & word_at(memory, e)),
        1 => machine.lac = (machine.lac + word_at(memory, e)) & 0o17777,
        2 => {
            let word = increased(word_at(memory, e));
            store(memory, e, word, watch);
            if word == 0 {
                watch.saw(Event::Skipped);
                machine.skip();
            }
        }
        3 => {
            store(memory, e, machine.ac(), watch);
            machine.set_ac(0);
        }
        4 => {
            store(memory, e, machine.pc, watch);
            machine.pc = increased(e);
        }
        _ => machine.pc = e,
    }
}
