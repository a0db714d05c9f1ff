# 6001 does not omit its step's interrupt test.
# areas: emulate
# file: harness/independent/machine.rs
/return; \/\/ 6001/d
