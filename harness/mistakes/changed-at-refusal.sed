# A refusal clears PC.
# areas: emulate-state
# file: harness/independent/emulate.rs
s/Err(refusal) => \[refusal.number, refusal.place, 0\],/Err(refusal) => {\n            registers[1] = 0;\n            [refusal.number, refusal.place, 0]\n        }/
