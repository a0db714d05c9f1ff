# Or is stronger than And.
# areas: texts
# file: harness/independent/expression.rs
s/(Binary::And, 2)/(Binary::And, 1)/;s/(Binary::Or, 1)/(Binary::Or, 2)/
