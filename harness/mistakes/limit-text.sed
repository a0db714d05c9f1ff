# 16,385 bytes pass.
# areas: limits
# file: harness/independent/description.rs
s/16384/16385/
