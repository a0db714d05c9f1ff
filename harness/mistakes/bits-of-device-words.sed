# Word 6033 clears AC and the flag, as if each bit of a device word had its own effect.
# areas: devices device-words
# file: harness/independent/emulate_devices.rs
s/KCC => kcc/KCC | 0o6033 => kcc/
