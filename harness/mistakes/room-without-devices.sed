# Room counts for a description without devices.
# areas: device-edges device-texts
# file: harness/independent/evaluate_devices.rs
s/None => run(/None if output_full => (0, 3, Vec::new()),\n                None => run(/
s/^            let mut lines = Lines::new(input, output);/            let output_full = output.is_empty();\n            let mut lines = Lines::new(input, output);/
