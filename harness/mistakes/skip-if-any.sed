# With bit 8 any selected condition is enough for a skip, where all have to hold.
# areas: words
# file: harness/independent/operate.rs
s/(!bit(i, 5) || !negative) && (!bit(i, 6) || !zero) && (!bit(i, 7) || !link)/i \& 0o160 == 0 || bit(i, 5) \&\& !negative || bit(i, 6) \&\& !zero || bit(i, 7) \&\& !link/
