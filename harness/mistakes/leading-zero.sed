# Leading zeros pass.
# areas: damaged constants
# file: harness/independent/lines.rs
s/ || digits.len() > 1 \&\& digits\[0\] == b'0'//
