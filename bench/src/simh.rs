//! SIMH's pdp8 in a process of its own: its time is that of a long run less that of a run of one step.

use crate::programs::Program;
use crate::timing;
use std::process::{Command, Stdio};

pub struct Simh {
    work: String,
}

/// What SIMH has at the end: PC, L and AC.
pub type End = [u16; 3];

impl Simh {
    /// `None` if there is no pdp8 to run.
    pub fn new(work: &str) -> Option<Simh> {
        let simh = Simh { work: work.to_string() };
        simh.steps(&crate::programs::PROGRAMS[0], 1).map(|_| simh)
    }

    /// Seconds for so many steps, starting and stopping included, and the end.
    fn steps(&self, program: &Program, steps: u64) -> Option<(f64, End)> {
        let script = format!("{}step {}\nexamine pc,l,ac\nexit\n", program.deposits(), steps);
        std::fs::write(format!("{}/program.do", self.work), script).ok()?;
        let before = timing::children();
        let output = Command::new("pdp8").arg("program.do").current_dir(&self.work).stdin(Stdio::null()).output().ok()?;
        let seconds = timing::children() - before;
        let text = String::from_utf8_lossy(&output.stdout).into_owned();
        let value = |name: &str| {
            let line = text.lines().find_map(|line| line.strip_prefix(name))?;
            u16::from_str_radix(line.trim(), 8).ok()
        };
        Some((seconds, [value("PC:\t")?, value("L:\t")?, value("AC:\t")?]))
    }

    /// Steps a second, and the end.
    pub fn rate(&self, program: &Program, steps: u64) -> Option<(f64, End)> {
        let (start, _) = self.steps(program, 1)?;
        let (long, end) = self.steps(program, steps)?;
        Some((steps as f64 / (long - start), end))
    }
}
