# KRS ors nothing while the keyboard flag is 0.
# areas: devices device-edges device-words
# file: harness/independent/emulate_devices.rs
s/KRS => krs(machine, self),/KRS if self.keyboard_flag == 1 => krs(machine, self),/
