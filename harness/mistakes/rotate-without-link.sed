# A rotate of AC without L.
# areas: emulate
# file: harness/independent/operate.rs
s/lac = (lac << places | lac >> (13 - places)) & 0o17777/lac = (lac \& 0o10000) | (lac << places | (lac \& WORD) >> (12 - places)) \& WORD/
