# A byte arrives though the keyboard flag is 1.
# areas: devices device-edges device-texts device-words
# file: harness/independent/devices.rs
s/self.keyboard_flag == 0 \&\& //
