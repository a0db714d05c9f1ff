# The word shown is the one there after the step.
# areas: listing
# file: harness/independent/listing.rs
s/page += \&format!/let i = word_at(\&memory, pc);\n        page += \&format!/
