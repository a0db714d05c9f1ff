# LAC is printed in four digits.
# areas: listing
# file: harness/independent/listing.rs
s/:05o/:04o/
