# A rotation by 16 places passes.
# areas: limits
# file: harness/independent/expression.rs
s/decimal(run, 15)/decimal(run, 16)/
