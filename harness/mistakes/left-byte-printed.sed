# AC<0:7> is printed.
# areas: devices device-edges device-words twin
# file: harness/independent/emulate_devices.rs
s/machine.ac() \& 0o377/machine.ac() >> 4/
