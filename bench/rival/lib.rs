//! The rival in speed: document 01's evaluator with the rows compiled once to three-address entries. Its reader and its emulator
//! are the plain implementation's (harness/independent), which stands for a program written without effort for speed.
//! harness/rival compares it with the plain one.

pub mod compile;
pub mod cycle;
pub mod evaluate;
pub mod evaluate_devices;

pub use evaluate::evaluate;
pub use evaluate_devices::evaluate_devices;
pub use independent::*;
