# The working registers are told as they were before the run.
# areas: explain
# file: harness/independent/explain.rs
s/    values\[..6\].copy_from_slice(&run.registers);/    values = [0; REGISTERS];\n    values[..6].copy_from_slice(\&run.registers);/
