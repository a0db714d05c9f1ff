# The rival: a sum loses its bits above 12.
# areas: shipped
# file: bench/rival/cycle.rs
s/slots.value(a).wrapping_add(slots.value(b))/slots.value(a).wrapping_add(slots.value(b)) \& WORD/
