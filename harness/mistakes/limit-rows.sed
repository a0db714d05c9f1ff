# The 128th row is turned down.
# areas: limits
# file: harness/independent/description.rs
s/ROWS: usize = 128/ROWS: usize = 127/
