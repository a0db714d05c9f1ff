# Only the first 200 bytes of a line are looked at.
# areas: constants
# file: harness/independent/constants.rs
s/^    if start >= line.len()/    let line = \&line[..line.len().min(200)];\n&/
