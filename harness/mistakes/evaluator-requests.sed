# The evaluator writes INTERRUPT.REQUEST.
# areas: device-edges device-texts
# file: harness/independent/evaluate_devices.rs
s/^        acted = cycle/        if let Some(place) = description.registers.iter().position(|r| r.name == b"INTERRUPT.REQUEST" \&\& r.width == 1) {\n            registers[place] = devices.keyboard_flag | devices.printer_flag;\n        }\n        acted = cycle/
