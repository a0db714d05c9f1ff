# A request that the call came with stays.
# areas: devices device-edges device-words
# file: harness/independent/emulate_devices.rs
s/^        machine.interrupt_request = self/        machine.interrupt_request |= self/
