# A start past 2^32 is taken modulo 2^32.
# areas: constants
# file: harness/independent/constants.rs
s/^    if start >= line.len()/    let start = start % (1 << 32);\n&/
