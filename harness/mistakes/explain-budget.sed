# A budget of 1,000,001 passes.
# areas: explain
# file: harness/independent/explain.rs
s/if value <= BUDGET {/if value <= BUDGET + 1 {/
