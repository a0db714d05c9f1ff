# Five octal digits don't pass.
# areas: constants limits
# file: harness/independent/constants.rs
s/marked(&token\[1..\], 3, 5)/marked(\&token[1..], 3, 4)/
