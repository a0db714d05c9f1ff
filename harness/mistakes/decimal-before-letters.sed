# A decimal ends where its digits do, whatever letters or dots follow.
# areas: constants
# file: harness/independent/constants.rs
s/^        byte if in_run(byte)/        byte if byte.is_ascii_digit() => run_end(line, start, |byte| byte.is_ascii_digit()),\n&/
