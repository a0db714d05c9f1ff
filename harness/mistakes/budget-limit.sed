# A budget of 1,000,000 is turned down.
# areas: edges
# file: harness/independent/state.rs
s/budget > BUDGET/budget >= BUDGET/
