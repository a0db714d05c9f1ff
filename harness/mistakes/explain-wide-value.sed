# A register's line may have a value that does not fit.
# areas: explain
# file: harness/independent/explain.rs
s/if value >> width == 0 {/if value < 0o77777 {/
