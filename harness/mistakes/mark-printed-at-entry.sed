# A mark that the call came with is printed.
# areas: devices device-edges device-splits
# file: harness/independent/emulate_devices.rs
s/^            let mut lines = Lines::new(input, output);/            let mut lines = Lines::new(input, output);\n            if lines.has_room() {\n                held.end(\&mut lines, watch);\n            }/
