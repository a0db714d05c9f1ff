# The reason of a run that fills the output as the budget ends is spent.
# areas: devices device-edges twin
# file: harness/independent/emulate_devices.rs
s/reason(machine.run, lines.has_room())/reason(machine.run, lines.has_room() || steps == budget)/
