# A register of a device is found by name alone.
# areas: device-edges device-texts
# file: harness/independent/evaluate_devices.rs
s/ \&\& r.width == width//
