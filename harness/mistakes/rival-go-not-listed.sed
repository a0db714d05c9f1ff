# The rival: a go that acts is not listed.
# areas: shipped
# file: bench/rival/cycle.rs
/fn go_row/,/^    }/s/self.add(test.row);//
