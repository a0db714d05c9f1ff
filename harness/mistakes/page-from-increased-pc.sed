# The page is formed from the increased PC.
# areas: emulate
# file: harness/independent/machine.rs
s/let last_pc = machine.pc;/let last_pc = increased(machine.pc);/
