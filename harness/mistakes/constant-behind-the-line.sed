# The byte behind a line belongs to it.
# areas: constants
# file: harness/mistakes/as_library.rs
s/read_constant(bytes_of(line, bytes), start)/read_constant(if bytes == 0 { \&[] } else { from_raw_parts(line, bytes + 1) }, start)/
