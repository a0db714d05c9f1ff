# A row list of 127 places passes.
# areas: evaluate-state
# file: harness/independent/evaluate.rs
s/rows.len() < ROW_PLACES/rows.len() < ROW_PLACES - 1/
