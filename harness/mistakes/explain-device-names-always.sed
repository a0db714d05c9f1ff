# Explain has names for the devices' words without devices, too.
# areas: explain
# file: harness/independent/mnemonic.rs
s/devices \&\& \*word == i/*word == i/
