# Of unused register places only those below 16 are looked at.
# areas: edges evaluate-state
# file: harness/independent/state.rs
s/registers.iter().enumerate()/registers.iter().take(widths.len().max(16)).enumerate()/
