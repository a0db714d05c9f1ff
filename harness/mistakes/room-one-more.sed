# A step begins where the output is full.
# areas: devices device-edges device-texts twin
# file: harness/independent/devices.rs
s/self.printed < self.output.len()/self.printed <= self.output.len()/
s/^            lines.output\[lines.printed\] = self.print_byte as u8;/            if let Some(place) = lines.output.get_mut(lines.printed) {\n                *place = self.print_byte as u8;\n            }/
