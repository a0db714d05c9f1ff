# A marked constant lacks its last digit.
# areas: constants texts
# file: harness/independent/constants.rs
s/let value = digits.iter().fold/let value = digits[..digits.len() - 1].iter().fold/
