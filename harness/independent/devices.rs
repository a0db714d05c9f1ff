//! Keyboard and teleprinter (document 02, Two): their five registers, what the start of a step or cycle does to them, and what its end takes.

use crate::watch::{Event, Watch};

/// The devices' registers, in document 02's order.
#[derive(Clone, Copy, PartialEq, Eq, Debug)]
pub struct Devices {
    pub key_byte: u16,
    pub keyboard_flag: u16,
    pub printer_flag: u16,
    pub print_byte: u16,
    pub print_mark: u16,
}

/// Name and bits of each of the devices' registers.
pub const DEVICE_REGISTERS: [(&[u8], u8); 5] =
    [(b"KEY.BYTE", 8), (b"KEYBOARD.FLAG", 1), (b"PRINTER.FLAG", 1), (b"PRINT.BYTE", 8), (b"PRINT.MARK", 1)];

/// The input with the bytes that arrived, and the output with the bytes that were printed.
pub struct Lines<'a> {
    pub input: &'a [u8],
    pub read: usize,
    pub output: &'a mut [u8],
    pub printed: usize,
}

impl<'a> Lines<'a> {
    pub fn new(input: &'a [u8], output: &'a mut [u8]) -> Lines<'a> {
        Lines { input, read: 0, output, printed: 0 }
    }

    /// "With no place left in the output buffer no step begins."
    pub fn has_room(&self) -> bool {
        self.printed < self.output.len()
    }
}

impl Devices {
    pub fn from_array(r: [u16; 5]) -> Devices {
        Devices { key_byte: r[0], keyboard_flag: r[1], printer_flag: r[2], print_byte: r[3], print_mark: r[4] }
    }

    pub fn to_array(self) -> [u16; 5] {
        [self.key_byte, self.keyboard_flag, self.printer_flag, self.print_byte, self.print_mark]
    }

    /// The start of a step.
    pub fn begin<W: Watch>(&mut self, lines: &mut Lines, watch: &mut W) {
        self.arrive(lines, watch);
        self.rise(watch);
    }

    /// "The next input byte arrives and raises the keyboard flag at the start of a step that finds it 0."
    pub fn arrive<W: Watch>(&mut self, lines: &mut Lines, watch: &mut W) {
        if self.keyboard_flag == 0 && lines.read < lines.input.len() {
            watch.saw(Event::Arrived);
            self.key_byte = u16::from(lines.input[lines.read]);
            self.keyboard_flag = 1;
            lines.read += 1;
        }
    }

    /// "The printer flag rises at the start of the step after a print, which a print mark remembers until then."
    pub fn rise<W: Watch>(&mut self, watch: &mut W) {
        if self.print_mark == 1 {
            watch.saw(Event::Risen);
            self.printer_flag = 1;
            self.print_mark = 0;
        }
    }

    /// The end of a step: a mark that stands is new, since the start cleared it, and its byte is printed.
    pub fn end<W: Watch>(&self, lines: &mut Lines, watch: &mut W) {
        if self.print_mark == 1 {
            watch.saw(Event::Printed);
            lines.output[lines.printed] = self.print_byte as u8;
            lines.printed += 1;
        }
    }
}
