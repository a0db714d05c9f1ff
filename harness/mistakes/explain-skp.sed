# SKP is written beside other skips, too.
# areas: explain
# file: harness/independent/mnemonic.rs
s/selected(i, &\[(5, "SPA")/selected(i, \&[(8, "SKP"), (5, "SPA")/
