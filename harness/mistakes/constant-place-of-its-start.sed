# The place of the constant is given, not the place after it.
# areas: constants
# file: harness/independent/constants.rs
s/u64::from(width), after as u64\]/u64::from(width), start as u64]/
