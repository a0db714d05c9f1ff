# A byte is printed past the output.
# areas: devices device-edges
# file: harness/independent/devices.rs
s/self.printed < self.output.len()/self.printed <= self.output.len()/
s/^            lines.output\[lines.printed\] = self.print_byte as u8;/            unsafe { *lines.output.as_mut_ptr().add(lines.printed) = self.print_byte as u8 };/
