# Of more than five octal digits the first five are taken.
# areas: constants
# file: harness/independent/constants.rs
s/run_end(line, start + 1, |byte| (b'0'..=b'7').contains(&byte))/&.min(start + 6)/
