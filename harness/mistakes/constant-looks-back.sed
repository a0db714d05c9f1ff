# Inside a token there is no constant.
# areas: constants
# file: harness/independent/constants.rs
s/let start = start as usize;/&\n    let mut at = 0;\n    while at < start {\n        at = token_end(line, at);\n    }\n    if at != start {\n        return [0; 5];\n    }/
