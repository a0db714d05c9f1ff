# 33 pieces in an expression pass.
# areas: limits
# file: harness/independent/expression.rs
s/PIECES: usize = 32/PIECES: usize = 33/
