# A row that clears the first register, which may be RUN, ends the cycle.
# areas: texts
# file: harness/independent/rows.rs
s/=> assign(destination, expression, registers, memory),/=> {\n                assign(destination, expression, registers, memory);\n                if matches!(destination, Destination::Part(part) if part.register == 0) \&\& registers[0] == 0 {\n                    return acted;\n                }\n            }/
