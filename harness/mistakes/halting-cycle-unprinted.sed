# A cycle that halts prints nothing.
# areas: device-edges device-texts
# file: harness/independent/evaluate_devices.rs
s/^        devices_at(places, registers).end(lines, watch);/        if registers[description.run] == 1 {\n            devices_at(places, registers).end(lines, watch);\n        }/
