# The description with devices does not refresh INTERRUPT.REQUEST.
# areas: device-edges twin
# file: description/pdp8-devices.rows
/^do	1	INTERRUPT.REQUEST	/d
