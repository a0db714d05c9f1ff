# An octal constant has its value's bits.
# areas: constants texts
# file: harness/independent/constants.rs
s/b'#' => marked(&token\[1..\], 3, 5)/&.map(|(value, _)| (value, (16 - value.leading_zeros() as u8).max(1)))/
