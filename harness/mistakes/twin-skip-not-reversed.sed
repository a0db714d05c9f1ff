# The description with devices leaves the skip as it is where bit 8 is 1.
# areas: twin
# file: description/pdp8-devices.rows
s/^do	i<8>	skip	Not skip$/do	i<8>	skip	skip/
