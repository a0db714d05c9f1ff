# No step begins where one place is left.
# areas: devices device-edges device-texts twin
# file: harness/independent/devices.rs
s/self.printed < self.output.len()/self.printed + 1 < self.output.len()/
