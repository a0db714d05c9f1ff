# A halt refreshes INTERRUPT.REQUEST.
# areas: devices device-edges device-words
# file: harness/independent/machine.rs
s/return; \/\/ a halt.*/return outside.before_test(machine, watch);/
