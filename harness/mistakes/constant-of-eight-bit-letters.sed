# Bytes above 127 count as letters.
# areas: constants
# file: harness/independent/lines.rs
s/byte.is_ascii_alphanumeric() || byte == b'.'/& || byte > 127/
