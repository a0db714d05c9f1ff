# INTERRUPT.REQUEST is refreshed only where INTERRUPT.ENABLE is 1.
# areas: devices device-edges device-words
# file: harness/independent/emulate_devices.rs
s/^        machine.interrupt_request = \(.*\);/        if machine.interrupt_enable == 1 {\n            machine.interrupt_request = \1;\n        }/
