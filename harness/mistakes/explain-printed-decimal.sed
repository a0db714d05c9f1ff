# Explain shows what was printed in decimal digits.
# areas: explain
# file: harness/independent/explain.rs
s/format!("{:03o}", byte)/format!("{:03}", byte)/
