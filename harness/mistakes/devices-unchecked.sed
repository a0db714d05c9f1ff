# 13 looks at the six machine registers alone.
# areas: devices-state device-edges
# file: harness/independent/emulate_devices.rs
s/registers.iter().chain(devices.iter())/registers.iter()/
