# Op 2 works its address out twice.
# areas: emulate
# file: harness/independent/memory_reference.rs
s/        2 => {/        2 => {\n            let e = effective_address(memory, i, last_pc, watch);/
