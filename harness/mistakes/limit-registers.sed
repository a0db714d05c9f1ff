# The 32nd register is turned down.
# areas: limits register-sets
# file: harness/independent/description.rs
s/self.registers.len() <= REGISTERS/self.registers.len() < REGISTERS/
