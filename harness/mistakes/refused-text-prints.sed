# A refusal of the evaluator prints a byte.
# areas: device-texts limits
# file: harness/independent/evaluate_devices.rs
s/^        Err(refusal) => \(.*\),$/        Err(refusal) => {\n            output.iter_mut().take(1).for_each(|byte| *byte = !*byte);\n            \1\n        }/
