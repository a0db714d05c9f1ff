# A decimal has its shortest form's bits.
# areas: texts constants
# file: harness/independent/constants.rs
s/shortest + 1/shortest/
