# The reason of a halted run without room is paper.
# areas: devices device-edges device-texts
# file: harness/independent/emulate_devices.rs
s/^    if run == 0 {/    if !has_room {\n        return PAPER;\n    }\n    if run == 0 {/
