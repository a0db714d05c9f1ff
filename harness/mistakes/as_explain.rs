//! The independent explain as a program, so that an altered copy of it can stand in for the program explain.

use std::io::{Read, Write};

fn main() -> std::io::Result<()> {
    let mut input = Vec::new();
    std::io::stdin().read_to_end(&mut input)?;
    std::io::stdout().write_all(independent::explain(&input, include_bytes!("../../description/pdp8.rows"), include_bytes!("../../description/pdp8-devices.rows")).as_bytes())
}
