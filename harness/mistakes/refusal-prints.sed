# A refusal prints a byte.
# areas: devices-state device-edges
# file: harness/independent/emulate_devices.rs
s/^        Err(refusal) => \(.*\),$/        Err(refusal) => {\n            output.iter_mut().take(1).for_each(|byte| *byte = !*byte);\n            \1\n        }/
