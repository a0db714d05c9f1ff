# A byte arrives after a cycle, not before it.
# areas: device-edges device-texts twin
# file: harness/independent/evaluate_devices.rs
s/^        devices.begin(lines, watch);/        devices.rise(watch);/
s/^        devices_at(places, registers).end(lines, watch);/        devices_at(places, registers).end(lines, watch);\n        let mut devices = devices_at(places, registers);\n        devices.arrive(lines, watch);\n        for (place, value) in places.into_iter().zip(devices.to_array()) {\n            registers[place] = value;\n        }/
