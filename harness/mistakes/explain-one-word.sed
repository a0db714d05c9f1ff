# Only the first word that the last step changed is told.
# areas: explain
# file: harness/independent/explain.rs
s/filter(|(_, (old, new))| old != new)/filter(|(_, (old, new))| old != new).take(1)/
