# The last line's LF may be missing.
# areas: damaged
# file: harness/independent/lines.rs
s/found.push(Line { number, bytes: None });/found.push(Line { number, bytes: Some(\&text[start..]) });/
