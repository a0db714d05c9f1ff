# An address's pieces do not count towards the 1,024.
# areas: damaged-limits
# file: harness/independent/description.rs
s/self.row_limits(a + b + c)/self.row_limits(a + c)/
