# The rival: no byte arrives.
# areas: device-texts twin
# file: bench/rival/evaluate_devices.rs
s/devices.begin(lines, &mut Unwatched);/devices.rise(\&mut Unwatched);/
