# The rival: a rotation to the right goes to the left.
# areas: texts
# file: bench/rival/compile.rs
s/if \*left || count == 0 { count } else { width - count }/count/
