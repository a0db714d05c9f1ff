//! What both machines have at the end of a run, and what is different.

/// Of the devices: KEY.BYTE, KEYBOARD.FLAG, PRINTER.FLAG, PRINT.BYTE; all 0 without them. `printed` lacks a byte whose printer flag has not risen.
#[derive(Clone, PartialEq)]
pub struct End {
    pub pc: u16,
    pub link: u16,
    pub ac: u16,
    pub enable: u16,
    pub devices: [u16; 4],
    pub memory: Vec<u16>,
    pub printed: Vec<u8>,
}

impl End {
    fn registers(&self) -> String {
        let devices = format!("KEY.BYTE {:o} KEYBOARD.FLAG {} PRINTER.FLAG {} PRINT.BYTE {:o}", self.devices[0], self.devices[1], self.devices[2], self.devices[3]);
        format!("PC {:04o} L {} AC {:04o} INTERRUPT.ENABLE {} {}", self.pc, self.link, self.ac, self.enable, devices)
    }
}

/// What is different between one run's two ends.
pub fn difference(library: &End, simh: &End) -> Option<String> {
    if library.registers() != simh.registers() {
        return Some(format!("{}, SIMH {}", library.registers(), simh.registers()));
    }
    if library.printed != simh.printed {
        return Some(format!("printed {:?}, SIMH {:?}", library.printed, simh.printed));
    }
    let place = (0..4096).find(|n| library.memory[*n] != simh.memory[*n])?;
    Some(format!("word {:04o} {:04o}, SIMH {:04o}", place, library.memory[place], simh.memory[place]))
}
