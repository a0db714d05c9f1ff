# Places after the rows that acted are cleared.
# areas: shipped
# file: harness/independent/evaluate.rs
s/rows\[..acted.len()\].copy_from_slice/rows.fill(0);\n            rows[..acted.len()].copy_from_slice/
