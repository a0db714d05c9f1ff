# RUN may be wider than 1.
# areas: damaged
# file: harness/independent/description.rs
s/ \&\& r.width == 1//
