# 7403 and its like, with bit 11, omit their step's interrupt test as 7402 does.
# areas: emulate
# file: harness/independent/machine.rs
s/if machine.run == 0 {/if machine.run == 0 || i \& 0o7403 == 0o7403 {/
