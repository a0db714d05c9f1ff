# A Not stays open after its operand's end.
# areas: limits
# file: harness/independent/expression.rs
/b"Not") => {/,/width = /s/self.close();/self.close();\n                self.depth += 1;/
