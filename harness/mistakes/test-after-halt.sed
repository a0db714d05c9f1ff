# A halt does not omit its step's interrupt test.
# areas: emulate
# file: harness/independent/machine.rs
/return; \/\/ a halt/d
