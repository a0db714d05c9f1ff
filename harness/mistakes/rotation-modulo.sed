# A rotation count is not taken modulo the width.
# areas: texts
# file: harness/independent/rows.rs
s/count % width/count.min(width)/
