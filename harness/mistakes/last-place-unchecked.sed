# The last register place is not looked at.
# areas: edges evaluate-state
# file: harness/independent/state.rs
s/registers.iter().enumerate()/registers.iter().take(31).enumerate()/
