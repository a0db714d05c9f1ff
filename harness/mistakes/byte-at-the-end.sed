# A byte arrives at the end of a step.
# areas: devices device-edges device-words twin
# file: harness/independent/emulate_devices.rs
s/^    devices.begin(lines, watch);/    devices.rise(watch);/
s/^    devices.end(lines, watch);/    devices.end(lines, watch);\n    devices.arrive(lines, watch);/
