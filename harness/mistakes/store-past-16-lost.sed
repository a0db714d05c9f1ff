# What is stored in a register from the 17th on is lost.
# areas: texts register-sets
# file: harness/independent/rows.rs
s/registers\[part.register\] = others/registers[if part.register < 16 { part.register } else { return }] = others/
