# A go may lead up.
# areas: damaged
# file: harness/independent/description.rs
s/ \&\& l.line > go.line//
