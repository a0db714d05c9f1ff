# Nesting to 9 passes.
# areas: limits
# file: harness/independent/expression.rs
s/DEEPEST: usize = 8/DEEPEST: usize = 9/
