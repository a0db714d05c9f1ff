# The pointer is used as it was before auto-indexing.
# areas: emulate
# file: harness/independent/memory_reference.rs
s/store(memory, first, word, watch);/store(memory, first, word, watch);\n        return word_at(memory, first).wrapping_sub(1) \& 0o7777;/
