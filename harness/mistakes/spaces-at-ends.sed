# A space may stand before an expression.
# areas: damaged
# file: harness/independent/tokens.rs
s/if field.first() == Some(&b' ') ||/if /
