# The last instruction's word is the one there after the step.
# areas: explain
# file: harness/independent/explain.rs
s/let i = word_at(&before.memory, pc);/let i = word_at(\&run.memory, pc);/
