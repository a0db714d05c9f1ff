# 6001 refreshes INTERRUPT.REQUEST.
# areas: devices device-edges device-words
# file: harness/independent/machine.rs
s/return; \/\/ 6001.*/return outside.before_test(machine, watch);/
