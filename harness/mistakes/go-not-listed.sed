# A go that acts is not listed.
# areas: shipped
# file: harness/independent/rows.rs
s/acted.push(at as u8);/if matches!(row, Row::Do { .. }) {\n            acted.push(at as u8);\n        }/
