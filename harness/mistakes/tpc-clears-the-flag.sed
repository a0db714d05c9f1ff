# TPC clears the printer flag.
# areas: devices device-edges device-words
# file: harness/independent/emulate_devices.rs
s/^    devices.print_mark = 1;/    devices.print_mark = 1;\n    devices.printer_flag = 0;/
