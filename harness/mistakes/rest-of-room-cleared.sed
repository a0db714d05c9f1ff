# Room past what is printed is cleared.
# areas: devices device-edges device-texts twin
# file: harness/independent/devices.rs
s/^        Lines { input/        output.fill(0);\n        Lines { input/
