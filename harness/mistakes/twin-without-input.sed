# The description with devices has a KEY.BYTE of 7 bits, so that it runs without devices.
# areas: device-edges twin
# file: description/pdp8-devices.rows
s/^reg	KEY.BYTE	8$/reg	KEY.BYTE	7/
