//! The emulator with devices: its eight instructions, its step, its run and its entry.

use crate::devices::{Devices, Lines, DEVICE_REGISTERS};
use crate::machine::{self, Machine, Memory, Outside, WIDTHS};
use crate::state::{check, HALTED, PAPER, SPENT};
use crate::watch::{Event, Unwatched, Watch};

/// Keyboard and teleprinter instructions.
pub const KSF: u16 = 0o6031;
pub const KCC: u16 = 0o6032;
pub const KRS: u16 = 0o6034;
pub const KRB: u16 = 0o6036;
pub const TSF: u16 = 0o6041;
pub const TCF: u16 = 0o6042;
pub const TPC: u16 = 0o6044;
pub const TLS: u16 = 0o6046;

/// The widths of the machine's six registers, then of the devices' five.
pub fn widths() -> Vec<u8> {
    WIDTHS.iter().copied().chain(DEVICE_REGISTERS.iter().map(|(_, width)| *width)).collect()
}

fn skip<W: Watch>(machine: &mut Machine, watch: &mut W) {
    watch.saw(Event::Skipped);
    machine.skip();
}

fn kcc(machine: &mut Machine, devices: &mut Devices) {
    machine.set_ac(0);
    devices.keyboard_flag = 0;
}

fn krs(machine: &mut Machine, devices: &Devices) {
    machine.lac |= devices.key_byte;
}

fn tcf(devices: &mut Devices) {
    devices.printer_flag = 0;
}

fn tpc(machine: &Machine, devices: &mut Devices) {
    devices.print_byte = machine.ac() & 0o377;
    devices.print_mark = 1;
}

impl Outside for Devices {
    fn instruction<W: Watch>(&mut self, machine: &mut Machine, i: u16, watch: &mut W) {
        match i {
            KSF if self.keyboard_flag == 1 => skip(machine, watch),
            KCC => kcc(machine, self),
            KRS => krs(machine, self),
            KRB => {
                kcc(machine, self);
                krs(machine, self);
            }
            TSF if self.printer_flag == 1 => skip(machine, watch),
            TCF => tcf(self),
            TPC => tpc(machine, self),
            TLS => {
                tcf(self);
                tpc(machine, self);
            }
            _ => {}
        }
    }

    /// "INTERRUPT.REQUEST becomes the or of the two flags at each interrupt test."
    fn before_test<W: Watch>(&self, machine: &mut Machine, watch: &mut W) {
        machine.interrupt_request = self.keyboard_flag | self.printer_flag;
        if machine.interrupt_enable & machine.interrupt_request == 1 {
            watch.saw(Event::InterruptedBy(self.keyboard_flag == 1, self.printer_flag == 1));
        }
    }
}

/// One step, between the devices' start and end.
fn step<W: Watch>(memory: &mut Memory, machine: &mut Machine, devices: &mut Devices, lines: &mut Lines, watch: &mut W) {
    devices.begin(lines, watch);
    watch.saw(Event::WithDevices(machine::word_at(memory, machine.pc)));
    machine::step(memory, machine, devices, watch);
    if machine.interrupt_request != devices.keyboard_flag | devices.printer_flag {
        watch.saw(Event::RequestStays);
    }
    devices.end(lines, watch);
}

/// "the reason is `halted` if RUN is 0, else `paper`, else `spent`"
pub fn reason(run: u16, has_room: bool) -> u64 {
    if run == 0 {
        return HALTED;
    }
    if has_room { SPENT } else { PAPER }
}

/// Steps done and the reason.
fn run<W: Watch>(memory: &mut Memory, machine: &mut Machine, devices: &mut Devices, lines: &mut Lines, budget: u64, watch: &mut W) -> (u64, u64) {
    let mut steps = 0;
    while machine.run == 1 && lines.has_room() && steps < budget {
        step(memory, machine, devices, lines, watch);
        steps += 1;
    }
    (steps, reason(machine.run, lines.has_room()))
}

/// What guavachisel_emulate_devices gives: refusal, steps or the refusal's place, reason, no rows, bytes that arrived, bytes printed.
pub fn emulate_devices(memory: &mut [u16], registers: &mut [u16; 6], devices: &mut [u16; 5], budget: u64, input: &[u8], output: &mut [u8]) -> [u64; 6] {
    emulate_devices_watched(memory, registers, devices, budget, input, output, &mut Unwatched)
}

pub fn emulate_devices_watched<W: Watch>(
    memory: &mut [u16],
    registers: &mut [u16; 6],
    devices: &mut [u16; 5],
    budget: u64,
    input: &[u8],
    output: &mut [u8],
    watch: &mut W,
) -> [u64; 6] {
    let values: Vec<u16> = registers.iter().chain(devices.iter()).copied().collect();
    match check(memory, &values, &widths(), budget) {
        Err(refusal) => [refusal.number, refusal.place, 0, 0, 0, 0],
        Ok(memory) => {
            let mut machine = Machine::from_array(*registers);
            let mut held = Devices::from_array(*devices);
            let mut lines = Lines::new(input, output);
            let (steps, reason) = run(memory, &mut machine, &mut held, &mut lines, budget, watch);
            *registers = machine.to_array();
            *devices = held.to_array();
            [0, steps, reason, 0, lines.read as u64, lines.printed as u64]
        }
    }
}
