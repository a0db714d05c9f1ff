# 1,025 pieces pass.
# areas: limits
# file: harness/independent/description.rs
s/ALL_PIECES: usize = 1024/ALL_PIECES: usize = 1025/
