# KCC clears L.
# areas: devices device-edges device-words
# file: harness/independent/emulate_devices.rs
/^fn kcc/,/^}/s/machine.set_ac(0);/machine.lac = 0;/
