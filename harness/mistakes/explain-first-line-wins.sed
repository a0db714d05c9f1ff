# The first line for an address wins, unless it gives 0.
# areas: explain
# file: harness/independent/explain.rs
s/Said::Word(address, word) => question.memory/Said::Word(address, _) if question.memory[address as usize] != 0 => {}\n            Said::Word(address, word) => question.memory/
