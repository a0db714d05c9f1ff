# A register is read at its place modulo 16.
# areas: texts register-sets
# file: harness/independent/rows.rs
s/registers\[part.register\] >> right_of_it/registers[part.register % 16] >> right_of_it/
