# The constant after the start is given.
# areas: constants
# file: harness/independent/constants.rs
s/if start >= line.len() as u64 {/if start >= (line.len() as u64).saturating_sub(1) {/
s/let start = start as usize;/let start = start as usize + 1;/
