# The printer flag rises in the step that prints.
# areas: devices device-edges device-words twin
# file: harness/independent/emulate_devices.rs
s/^    devices.print_mark = 1;/    devices.print_mark = 1;\n    devices.printer_flag = 1;/
