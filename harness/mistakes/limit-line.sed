# 200 bytes in a line do not pass.
# areas: limits
# file: harness/independent/lines.rs
s/LINE_BYTES: usize = 200/LINE_BYTES: usize = 199/
