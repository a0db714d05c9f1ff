# A sum loses its bits above 12.
# areas: shipped
# file: harness/independent/rows.rs
s/Binary::Add => left + right/Binary::Add => left + right \& WORD/
