# Of more than 16 binary digits the first 16 are taken.
# areas: constants
# file: harness/independent/constants.rs
s/run_end(line, start + 1, |byte| byte == b'0' || byte == b'1')/&.min(start + 17)/
