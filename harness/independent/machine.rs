//! The machine: its registers, one step, op 6 and the interrupt test.

use crate::memory_reference::memory_reference;
use crate::operate::operate;
use crate::watch::{Event, Watch};

/// Words of memory.
pub const WORDS: usize = 4096;
/// The largest word: 12 bits.
pub const WORD: u16 = 0o7777;

pub type Memory = [u16; WORDS];

/// The machine registers, in document 01's order.
#[derive(Clone, Copy, PartialEq, Eq, Debug)]
pub struct Machine {
    pub lac: u16,
    pub pc: u16,
    pub run: u16,
    pub interrupt_enable: u16,
    pub interrupt_request: u16,
    pub switches: u16,
}

/// Bits of each machine register.
pub const WIDTHS: [u8; 6] = [13, 12, 1, 1, 1, 12];

impl Machine {
    pub fn from_array(r: [u16; 6]) -> Machine {
        Machine { lac: r[0], pc: r[1], run: r[2], interrupt_enable: r[3], interrupt_request: r[4], switches: r[5] }
    }

    pub fn to_array(self) -> [u16; 6] {
        [self.lac, self.pc, self.run, self.interrupt_enable, self.interrupt_request, self.switches]
    }

    /// AC, the right 12 bits of LAC.
    #[inline(always)]
    pub fn ac(&self) -> u16 {
        self.lac & WORD
    }

    /// L, the leftmost bit of LAC.
    #[inline(always)]
    pub fn link(&self) -> u16 {
        self.lac >> 12
    }

    /// Stores AC and leaves L.
    #[inline(always)]
    pub fn set_ac(&mut self, ac: u16) {
        self.lac = (self.lac & 0o10000) | ac;
    }

    #[inline(always)]
    pub fn skip(&mut self) {
        self.pc = increased(self.pc);
    }
}

/// A word or PC plus 1, modulo 4,096.
#[inline(always)]
pub fn increased(word: u16) -> u16 {
    (word + 1) & WORD
}

/// The word at an address.
#[inline(always)]
pub fn word_at(memory: &Memory, address: u16) -> u16 {
    memory[(address & WORD) as usize]
}

/// Stores a word at an address.
#[inline(always)]
pub fn store<W: Watch>(memory: &mut Memory, address: u16, word: u16, watch: &mut W) {
    watch.saw(Event::Stored(address));
    memory[(address & WORD) as usize] = word;
}

/// What stands outside the machine. Without devices it is nothing: op 6 has no other words, and INTERRUPT.REQUEST stays as it came.
pub trait Outside {
    /// A word of op 6 other than 6001 and 6002.
    #[inline(always)]
    fn instruction<W: Watch>(&mut self, _machine: &mut Machine, _i: u16, _watch: &mut W) {}

    /// An interrupt test is about to be made.
    #[inline(always)]
    fn before_test<W: Watch>(&self, _machine: &mut Machine, _watch: &mut W) {}
}

/// No devices.
pub struct Nothing;

impl Outside for Nothing {}

/// One step: fetch, PC + 1, execute, interrupt test, which 6001 and a halt omit.
#[inline(always)]
pub fn step<O: Outside, W: Watch>(memory: &mut Memory, machine: &mut Machine, outside: &mut O, watch: &mut W) {
    let i = word_at(memory, machine.pc);
    watch.saw(Event::Fetched(machine.pc, i));
    let last_pc = machine.pc;
    machine.pc = increased(machine.pc);
    match i >> 9 {
        6 => {
            if i == 0o6001 {
                machine.interrupt_enable = 1;
                return; // 6001: no interrupt test
            }
            if i == 0o6002 {
                machine.interrupt_enable = 0;
            }
            outside.instruction(machine, i, watch);
        }
        7 => {
            operate(machine, i, watch);
            if machine.run == 0 {
                halted(machine, watch);
                return; // a halt: no interrupt test
            }
        }
        _ => memory_reference(memory, machine, i, last_pc, watch),
    }
    outside.before_test(machine, watch);
    interrupt_test(memory, machine, watch);
}

#[inline(always)]
fn halted<W: Watch>(machine: &Machine, watch: &mut W) {
    if machine.interrupt_enable & machine.interrupt_request == 1 {
        watch.saw(Event::HaltedPending);
    }
}

#[inline(always)]
fn interrupt_test<W: Watch>(memory: &mut Memory, machine: &mut Machine, watch: &mut W) {
    if machine.interrupt_enable & machine.interrupt_request == 1 {
        watch.saw(Event::Interrupted);
        store(memory, 0, machine.pc, watch);
        machine.pc = 1;
        machine.interrupt_enable = 0;
    }
}
