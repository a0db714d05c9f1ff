# Op 6 works out an address, and so increases a pointer.
# areas: words
# file: harness/independent/machine.rs
s/^        6 => {/        6 => {\n            if i \& 0o770 == 0o410 {\n                memory[(i \& 0o17) as usize] = increased(memory[(i \& 0o17) as usize]);\n            }/
