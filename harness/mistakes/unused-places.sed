# Unused register places are not looked at.
# areas: evaluate-state
# file: harness/independent/state.rs
s/registers.iter().enumerate()/registers.iter().take(widths.len()).enumerate()/
