//! Runs on the library's emulator, without devices or with them, stopped where the two machines are meant to differ.

use crate::devices;
use crate::end::End;
use crate::images::{comparable, Image, IOF};
use crate::library::{guavachisel_emulate, guavachisel_emulate_devices, told, told_devices, OUTCOME_PLACES};

/// A machine between two steps.
struct Machine {
    memory: Vec<u16>,
    registers: [u16; 6],
    devices: Option<[u16; 5]>,
    printed: Vec<u8>,
}

impl Machine {
    fn new(image: &Image) -> Machine {
        let registers = [image.lac, image.pc, 1, image.interrupt_enable, image.interrupt_request, image.switches];
        Machine { memory: image.memory.clone(), registers, devices: image.devices, printed: Vec::new() }
    }

    /// Whether both machines are meant to do the same in the next step.
    fn comparable(&self) -> bool {
        let word = self.memory[self.registers[1] as usize];
        match self.devices {
            None => comparable(word),
            Some([.., mark]) => devices::comparable(word) && (mark == 0 || self.registers[3] == 0),
        }
    }

    fn step(&mut self) {
        let mut outcome = [0; OUTCOME_PLACES];
        let (memory, registers) = (self.memory.as_mut_ptr(), self.registers.as_mut_ptr());
        match &mut self.devices {
            None => {
                unsafe { guavachisel_emulate(memory, self.memory.len(), registers, 1, outcome.as_mut_ptr()) };
                assert_eq!(told(outcome)[..2], [0, 1], "no step");
            }
            Some(devices) => {
                let mut output = [0; 2];
                unsafe {
                    guavachisel_emulate_devices(
                        memory,
                        self.memory.len(),
                        registers,
                        devices.as_mut_ptr(),
                        1,
                        [].as_ptr(),
                        0,
                        output.as_mut_ptr(),
                        output.len(),
                        outcome.as_mut_ptr(),
                    )
                };
                let told = told_devices(outcome);
                assert_eq!(told[..2], [0, 1], "no step");
                self.printed.extend(&output[..told[5] as usize]);
            }
        }
    }

    fn end(mut self) -> End {
        let [lac, pc, _, enable, ..] = self.registers;
        let [key_byte, keyboard_flag, printer_flag, print_byte, mark] = self.devices.unwrap_or([0; 5]);
        // a byte whose flag has not risen yet is one that SIMH has not printed yet
        self.printed.truncate(self.printed.len() - mark as usize);
        let devices = [key_byte, keyboard_flag, printer_flag, print_byte];
        End { pc, link: lac >> 12, ac: lac & 0o7777, enable, devices, memory: self.memory, printed: self.printed }
    }
}

/// The library's end, and its steps: at most the budget, and none from the first on that is not compared. An interrupt that the last step took
/// is one that SIMH takes before the next instruction, so there a step more is made, or one less where the next is not compared.
pub fn by_library(image: &Image, budget: u64) -> (End, u64) {
    let mut machine = Machine::new(image);
    let mut steps = 0;
    let mut interrupted = false;
    while (steps < budget || interrupted) && machine.registers[2] == 1 && machine.comparable() {
        let (word, enable) = (machine.memory[machine.registers[1] as usize], machine.registers[3]);
        machine.step();
        steps += 1;
        interrupted = machine.registers[2] == 1 && enable == 1 && machine.registers[3] == 0 && word != IOF;
    }
    if interrupted {
        return by_library(image, steps - 1);
    }
    (machine.end(), steps)
}

/// A program with devices from 0200 on until it halts, with its input; what it printed is all there.
pub fn program_by_library(memory: &[u16], input: &[u8]) -> End {
    let mut machine = Machine { memory: memory.to_vec(), registers: [0, 0o200, 1, 0, 0, 0], devices: None, printed: vec![0; 4096] };
    let mut devices = [0; 5];
    let mut outcome = [0; OUTCOME_PLACES];
    unsafe {
        guavachisel_emulate_devices(
            machine.memory.as_mut_ptr(),
            machine.memory.len(),
            machine.registers.as_mut_ptr(),
            devices.as_mut_ptr(),
            1_000_000,
            input.as_ptr(),
            input.len(),
            machine.printed.as_mut_ptr(),
            machine.printed.len(),
            outcome.as_mut_ptr(),
        )
    };
    let [refusal, _, reason, _, read, printed] = told_devices(outcome);
    assert_eq!([refusal, reason, read], [0, 1, input.len() as u64], "the program has not halted, or not read its input");
    machine.printed.truncate(printed as usize);
    machine.end()
}
