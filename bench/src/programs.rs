//! Programs that never halt: three that all machines run alike, and two that speak to the teleprinter.

pub struct Program {
    pub name: &'static str,
    /// Addresses and words; everything else is 0. All programs start at 0200.
    words: &'static [(usize, &'static [u16])],
}

pub const PROGRAMS: [Program; 3] = [
    Program {
        name: "ISZ and JMP",
        // ISZ 0210, JMP 0200, JMP 0200
        words: &[(0o200, &[0o2210, 0o5200, 0o5200])],
    },
    Program {
        name: "indirect and auto-indexed",
        words: &[
            // TAD 0230, DCA 10, TAD 0231, DCA 11, TAD 0232, DCA 0233 : pointers and a count of 512 set
            (0o200, &[0o1230, 0o3010, 0o1231, 0o3011, 0o1232, 0o3233]),
            // TAD I 10, DCA I 11, TAD I 0234, AND I 0235, DCA I 0234, ISZ 0233, JMP 0206, JMP 0200
            (0o206, &[0o1410, 0o3411, 0o1634, 0o0635, 0o3634, 0o2233, 0o5206, 0o5200]),
            (0o230, &[0o777, 0o1777, 0o7000, 0, 0o3000, 0o3001]),
            (0o1000, &[0o1234, 0o4321, 0o7777, 0o0001]),
            (0o3000, &[0o5252, 0o7770]),
        ],
    },
    Program {
        name: "operate",
        // CLA CLL; IAC RAL; CMA CML; RTR; SZA; IAC; SNL; CMA; CLL RTL; SMA; CML; SKP; NOP; CLA CMA RAR; SZL; IAC; JMP 0201
        words: &[(0o200, &[0o7300, 0o7005, 0o7060, 0o7012, 0o7440, 0o7001, 0o7420, 0o7040, 0o7106, 0o7500, 0o7020, 0o7410, 0o7000, 0o7250, 0o7430, 0o7001, 0o5201])],
    },
];

pub const DEVICE_PROGRAMS: [Program; 2] = [
    Program {
        name: "polls all day",
        // TSF, JMP 0200
        words: &[(0o200, &[0o6041, 0o5200])],
    },
    Program {
        name: "prints all day",
        // TLS, IAC, JMP 0200
        words: &[(0o200, &[0o6046, 0o7001, 0o5200])],
    },
];

impl Program {
    pub fn memory(&self) -> Vec<u16> {
        let mut memory = vec![0; 4096];
        for (address, words) in self.words {
            memory[*address..address + words.len()].copy_from_slice(words);
        }
        memory
    }

    /// SIMH's commands that put the program there.
    pub fn deposits(&self) -> String {
        let mut text = String::from("set cpu 4k\nset cpu noidle\nset nothrottle\n");
        for (address, words) in self.words {
            for (n, word) in words.iter().enumerate() {
                text += &format!("deposit {:o} {:o}\n", address + n, word);
            }
        }
        text + "deposit pc 200\ndeposit l 0\ndeposit ac 0\n"
    }
}
