# The word after an instruction is fetched before the instruction is executed, and used even if that rewrote it.
# areas: emulate listing explain
# file: harness/independent/machine.rs
s/    pub switches: u16,/    pub switches: u16,\n    prefetched: Option<(u16, u16)>,/
s/switches: r\[5\] }/switches: r[5], prefetched: None }/
s/    let i = word_at(memory, machine.pc);/    let i = match machine.prefetched {\n        Some((address, word)) if address == machine.pc => word,\n        _ => word_at(memory, machine.pc),\n    };\n    let next = increased(machine.pc);\n    machine.prefetched = Some((next, word_at(memory, next)));/
