# A refused register is told by its place modulo 16.
# areas: edges evaluate-state
# file: harness/independent/state.rs
s/refuse(13, place)/refuse(13, place % 16)/
