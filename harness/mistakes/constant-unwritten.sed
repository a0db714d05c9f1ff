# Where no constant is there the numbers stay as they came.
# areas: constants
# file: harness/mistakes/as_library.rs
s/^    \*constant = \(independent::read_constant(.*)\);/    let read = \1;\n    if read[0] == 1 {\n        *constant = read;\n    }/
