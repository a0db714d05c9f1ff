# 33 labels pass.
# areas: limits
# file: harness/independent/description.rs
s/LABELS: usize = 32/LABELS: usize = 33/
