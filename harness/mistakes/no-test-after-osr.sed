# OSR omits its step's interrupt test as HLT does.
# areas: emulate
# file: harness/independent/machine.rs
s/if machine.run == 0 {/if machine.run == 0 || i \& 0o7405 == 0o7404 {/
