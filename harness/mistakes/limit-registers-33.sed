# The 33rd register is taken.
# areas: limits
# file: harness/independent/description.rs
s/self.registers.len() <= REGISTERS/self.registers.len() <= REGISTERS + 1/
