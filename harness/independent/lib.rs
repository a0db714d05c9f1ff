//! Documents 01 and 02 in plain Rust, written from the documents alone: it shares no code and no tables with the Rattle sources.
//! `emulate`, `read`, `read_constant` and `evaluate`, and the two with devices, answer as the C entries of include/guavachisel.h do;
//! `listing` is the day listing, and `explain` the desk's program, which README.md and docs/DECISIONS.md describe.

pub mod constants;
pub mod description;
pub mod devices;
pub mod emulate;
pub mod emulate_devices;
pub mod evaluate;
pub mod evaluate_devices;
pub mod explain;
pub mod expression;
pub mod lines;
pub mod listing;
pub mod machine;
pub mod memory_reference;
pub mod mnemonic;
pub mod operate;
pub mod rows;
pub mod state;
pub mod tokens;
pub mod watch;

pub use constants::read_constant;
pub use description::read;
pub use emulate::emulate;
pub use emulate_devices::emulate_devices;
pub use evaluate::evaluate;
pub use evaluate_devices::evaluate_devices;
pub use explain::explain;
pub use listing::listing;
