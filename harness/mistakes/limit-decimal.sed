# 32768 passes.
# areas: constants limits
# file: harness/independent/constants.rs
s/decimal(run, 32767)/decimal(run, 32768)/
