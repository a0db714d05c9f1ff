# Bit 11 tells RTL and RTR from RAL and RAR, not bit 10.
# areas: explain
# file: harness/independent/mnemonic.rs
s/if bit(i, 10) { \[(9, "RTL")/if bit(i, 11) { [(9, "RTL")/
