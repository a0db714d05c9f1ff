# The mark stays when the printer flag rises, so that a byte is printed again.
# areas: devices device-edges device-texts
# file: harness/independent/devices.rs
/^            self.print_mark = 0;/d
