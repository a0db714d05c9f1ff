# With bit 8 and no condition selected nothing is skipped.
# areas: words
# file: harness/independent/operate.rs
s/(!bit(i, 5) || !negative) && /i \& 0o160 != 0 \&\& &/
