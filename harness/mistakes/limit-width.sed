# A width of 17 passes.
# areas: limits
# file: harness/independent/expression.rs
s/WIDEST: u8 = 16/WIDEST: u8 = 17/
