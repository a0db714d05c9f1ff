# The leftmost place of a constant doesn't matter.
# areas: constants
# file: harness/independent/constants.rs
s/(1 << width) - 1, u64/(1 << (width - 1)) - 1, u64/
