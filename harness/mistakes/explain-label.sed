# A label is told with the number of the last row above it.
# areas: explain
# file: harness/independent/explain.rs
s/label, above + 1)/label, above)/
