//! The programs `listing` and `explain` beside the Rust ones: what each prints for an input.

use crate::coverage::Coverage;
use std::io::{ErrorKind, Write};
use std::process::{Command, Stdio};

/// A program under test.
pub struct Program {
    /// Its name, which is its area's.
    pub name: &'static str,
    pub path: String,
    /// The shipped descriptions, whose lines explain prints.
    pub shipped: Vec<u8>,
    pub twin: Vec<u8>,
}

impl Program {
    pub fn is_built(&self) -> bool {
        std::path::Path::new(&self.path).is_file()
    }

    /// What the Rust side prints.
    fn own(&self, input: &[u8]) -> String {
        match self.name {
            "listing" => independent::listing(input),
            _ => independent::explain(input, &self.shipped, &self.twin),
        }
    }

    /// What the program prints. It may stop reading before the input's end.
    fn printed(&self, input: &[u8]) -> std::io::Result<Vec<u8>> {
        let mut child = Command::new(&self.path).stdin(Stdio::piped()).stdout(Stdio::piped()).spawn()?;
        if let Some(mut pipe) = child.stdin.take() {
            match pipe.write_all(input) {
                Err(error) if error.kind() != ErrorKind::BrokenPipe => return Err(error),
                _ => {}
            }
        }
        Ok(child.wait_with_output()?.stdout)
    }
}

/// What is different, if anything is.
pub fn difference(program: &Program, input: &[u8], coverage: &mut Coverage) -> Option<String> {
    let own = program.own(input);
    coverage.printed(program.name, &own);
    match program.printed(input) {
        Err(error) => Some(format!("{}: {}", program.path, error)),
        Ok(printed) if printed == own.as_bytes() => None,
        Ok(printed) => Some(format!("{} prints:\n{}Rust:\n{}", program.name, String::from_utf8_lossy(&printed), own)),
    }
}
