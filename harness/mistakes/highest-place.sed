# The highest offending word is told, not the lowest.
# areas: emulate-state
# file: harness/independent/state.rs
s/memory.iter().position/memory.iter().rposition/
