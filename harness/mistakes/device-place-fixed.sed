# The devices' registers are looked for after the first six alone.
# areas: device-edges device-texts
# file: harness/independent/evaluate_devices.rs
s/\.position(|r| r.name == name \&\& r.width == width)?/.skip(6).position(|r| r.name == name \&\& r.width == width)? + 6/
