# Explain hands the input over from its last byte on.
# areas: explain
# file: harness/independent/explain.rs
s/question.input = bytes;/question.input = bytes.into_iter().rev().collect();/
