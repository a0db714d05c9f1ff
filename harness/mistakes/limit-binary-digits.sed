# 16 binary digits don't pass.
# areas: constants limits
# file: harness/independent/constants.rs
s/marked(&token\[1..\], 1, 16)/marked(\&token[1..], 1, 15)/
