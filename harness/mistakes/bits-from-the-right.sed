# Bit 0 is the rightmost bit.
# areas: texts
# file: harness/independent/rows.rs
s/part.of - 1 - part.last/part.first/g
