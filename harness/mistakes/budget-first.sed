# A large budget is told before a bad memory.
# areas: emulate-state
# file: harness/independent/state.rs
s/let memory = acceptable(memory)?;/if budget > BUDGET { return refuse(14, 0); }\n    let memory = acceptable(memory)?;/
