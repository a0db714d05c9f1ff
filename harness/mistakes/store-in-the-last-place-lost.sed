# The last register place takes nothing.
# areas: texts register-sets
# file: harness/independent/rows.rs
s/registers\[part.register\] = others/registers[if part.register < 31 { part.register } else { return }] = others/
