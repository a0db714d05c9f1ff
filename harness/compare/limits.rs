//! Texts that reach each limit of document 01 exactly, and texts one past it, each with the answer that document 01 gives.

use crate::random::Random;

pub struct Limit {
    pub name: &'static str,
    pub past: bool,
    pub text: Vec<u8>,
    /// Number and line; 0 and 0 if accepted.
    pub answer: [u64; 2],
}

/// Every limit that has to be reached and passed.
pub const NAMES: [&str; 18] = [
    "text bytes",
    "line bytes",
    "registers",
    "rows",
    "labels",
    "pieces in all",
    "pieces",
    "nesting",
    "width",
    "rotation",
    "name bytes",
    "label bytes",
    "decimal",
    "binary digits",
    "octal digits",
    "bit number",
    "register width",
    "order of refusals",
];

/// The registers of most texts here: five lines after the header, so that the first row is line 7.
const REGISTERS: &str = "rows\t1\nreg\tRUN\t1\nreg\ta\t1\nreg\tb\t8\nreg\tc\t15\nreg\td\t16\n";
const FIRST_ROW: u64 = 7;

struct Limits(Vec<Limit>);

pub fn limits() -> Vec<Limit> {
    let mut all = Limits(Vec::new());
    all.sizes();
    all.counts();
    all.pieces();
    all.nesting();
    all.widths();
    all.small();
    all.order();
    all.0
}

/// `one` as often as said, with `between` between.
fn chain(one: &str, between: &str, times: usize) -> String {
    vec![one; times].join(between)
}

/// An expression of so many pieces, 1 to 33.
fn of_pieces(pieces: usize) -> String {
    let not = if pieces % 2 == 0 { "Not " } else { "" };
    format!("{}{}", not, chain("a", " Or ", (pieces + 1) / 2))
}

/// A row of exactly so many bytes, its LF aside.
fn row_of(bytes: usize) -> String {
    let (start, end) = ("do\t1\tRUN\t(1", ")");
    format!("{}{}{}", start, " ".repeat(bytes - start.len() - end.len()), end)
}

/// A description of exactly so many bytes, with lines as long as they may be.
pub fn text_of(bytes: usize) -> Vec<u8> {
    let mut text = String::from("rows\t1\nreg\tRUN\t1\n");
    while bytes - text.len() > 201 {
        let rest = bytes - text.len();
        let length = if rest > 201 + 20 { 200 } else { 180 };
        text += &row_of(length);
        text.push('\n');
    }
    text += &row_of(bytes - text.len() - 1);
    text.push('\n');
    text.into_bytes()
}

impl Limits {
    fn add(&mut self, name: &'static str, text: String, answer: [u64; 2]) {
        self.0.push(Limit { name, past: answer[0] != 0, text: text.into_bytes(), answer });
    }

    /// A text with `field` as a condition, an expression, an address, and a `go`'s condition.
    fn field(&mut self, name: &'static str, field: &str, fits: bool) {
        let answer = if fits { [0, 0] } else { [5, FIRST_ROW] };
        let rows = [
            format!("do\t{}\tc\t1\n", field),
            format!("do\t1\tc\t{}\n", field),
            format!("do\t1\tM[{}]\t1\n", field),
            format!("go\t{}\tl\nat\tl\n", field),
        ];
        for row in &rows {
            self.add(name, format!("{}{}", REGISTERS, row), answer);
        }
    }

    fn sizes(&mut self) {
        for bytes in [16383, 16384, 16385, 16386, 20000] {
            let answer = if bytes <= 16384 { [0, 0] } else { [1, 0] };
            self.0.push(Limit { name: "text bytes", past: bytes > 16384, text: text_of(bytes), answer });
        }
        for bytes in [199, 200, 201, 202] {
            let answer = if bytes <= 200 { [0, 0] } else { [3, 3] };
            self.add("line bytes", format!("rows\t1\nreg\tRUN\t1\n{}\n", row_of(bytes)), answer);
        }
        self.add("line bytes", format!("rows\t1{}\n", " ".repeat(200)), [2, 1]);
    }

    fn counts(&mut self) {
        for count in [15, 16, 17, 18, 31, 32, 33, 34] {
            let registers: String = (1..count).map(|n| format!("reg\tr{}\t{}\n", n, n % 16 + 1)).collect();
            let answer = if count <= 32 { [0, 0] } else { [7, 34] };
            self.add("registers", format!("rows\t1\nreg\tRUN\t1\n{}", registers), answer);
        }
        for count in [127, 128, 129, 130] {
            let answer = if count <= 128 { [0, 0] } else { [7, 131] };
            for row in ["do\t1\tRUN\tRUN\n", "go\tRUN\tend\n"] {
                self.add("rows", format!("rows\t1\nreg\tRUN\t1\n{}at\tend\n", row.repeat(count)), answer);
            }
        }
        for count in [31, 32, 33, 34] {
            let labels: String = (0..count).map(|n| format!("at\tl{}\n", n)).collect();
            let answer = if count <= 32 { [0, 0] } else { [7, 35] };
            self.add("labels", format!("rows\t1\nreg\tRUN\t1\n{}", labels), answer);
        }
    }

    fn pieces(&mut self) {
        for pieces in 30..=34 {
            self.field("pieces", &of_pieces(pieces), pieces <= 32);
        }
        self.field("pieces", &format!("{} Or M[a]", of_pieces(29)), true);
        self.field("pieces", &format!("{} Or M[a]", of_pieces(30)), false);
        self.field("pieces", &format!("(Not a Slr 1) And {}", of_pieces(27)), true);
        self.field("pieces", &format!("(Not a Slr 1) And {}", of_pieces(28)), false);
        // 15 rows of 64 pieces, one of 63, then one piece a `go`
        let row = format!("do\t{}\ta\t{}\n", of_pieces(32), of_pieces(32));
        let rows = format!("{}{}do\t{}\ta\t{}\n", REGISTERS, row.repeat(15), of_pieces(32), of_pieces(31));
        for gos in 0..4 {
            let answer = if gos <= 1 { [0, 0] } else { [7, FIRST_ROW + 16 + 1] };
            self.add("pieces in all", format!("{}{}at\tend\n", rows, "go\t1\tend\n".repeat(gos)), answer);
        }
        // the pieces of an address count too
        let row = format!("do\t1\tM[{}]\t{}\n", of_pieces(31), of_pieces(32));
        self.add("pieces in all", format!("{}{}", REGISTERS, row.repeat(16)), [0, 0]);
        self.add("pieces in all", format!("{}{}do\t1\tc\t1\n", REGISTERS, row.repeat(16)), [7, FIRST_ROW + 16]);
    }

    fn nesting(&mut self) {
        let mut random = Random::of_case(1, 0, 0);
        for depth in 7..=10 {
            for pattern in 0..12 {
                let mut field = String::from("a");
                for _ in 0..depth {
                    let kind = if pattern < 3 { pattern } else { random.below(3) };
                    field = match kind {
                        0 => format!("({})", field),
                        1 => format!("M[{}]", field),
                        _ => format!("Not {}", field),
                    };
                }
                self.field("nesting", &field, depth <= 8);
                // what is closed again doesn't count
                self.field("nesting", &format!("a Or Not a Or {} Or (a)", field), depth <= 8);
            }
        }
    }

    fn widths(&mut self) {
        for fits in ["b @ b", "c @ a", "c + c", "d And a", "d Or d", "Not d", "d Eql d", "d Lss c + c", "M[d] @ '0000", "d Slr 3", "a @ c", "'1111111111111111"] {
            self.field("width", fits, true);
        }
        let wide = [
            "b @ b @ a", "d @ a", "a @ d", "d + a", "a + d", "c + c + a", "d + c Eql a", "a Eql c + c + a", "(d + a) Slr 1",
            "M[d + a]", "M[d] @ '00000", "Not (d + 1)", "32767 + a",
            "(a Lss d) @ d",
        ];
        for field in wide {
            self.field("width", field, false);
        }
        for count in 0..=17 {
            self.field("rotation", &format!("d Slr {}", count), count <= 15);
            self.field("rotation", &format!("Not b Srr {} Slr 1", count), count <= 15);
        }
        for field in ["d Slr (1)", "d Slr #1", "d Slr '1", "d Slr 01", "d Slr a", "d Slr 1 @ a", "d Srr", "d Srr Not 1"] {
            self.field("rotation", field, false);
        }
        for width in ["0", "1", "9", "10", "16", "17", "18", "01", "016", "160", "1 ", "+1", "a", "65537"] {
            let answer = if ["1", "9", "10", "16"].contains(&width) { [0, 0] } else { [4, 3] };
            self.add("register width", format!("rows\t1\nreg\tRUN\t1\nreg\tx\t{}\n", width), answer);
        }
    }

    fn small(&mut self) {
        for length in [1, 19, 20, 21, 22] {
            let name = &"abcdefghij.LMNOPQ0123456"[..length];
            let answer = if length <= 20 { [0, 0] } else { [4, 3] };
            self.add("name bytes", format!("rows\t1\nreg\tRUN\t1\nreg\t{}\t1\n", name), answer);
            let answer = if length <= 20 { [0, 0] } else { [6, 4] };
            self.add("label bytes", format!("rows\t1\nreg\tRUN\t1\ndo\t1\tRUN\t1\nat\t{}\n", name), answer);
            let answer = if length <= 20 { [0, 0] } else { [6, 3] };
            self.add("label bytes", format!("rows\t1\nreg\tRUN\t1\ngo\t1\t{}\nat\t{}\n", name, name), answer);
        }
        for number in ["0", "1", "32766", "32767", "32768", "32769", "65536", "98303", "00", "01", "999999999999999999999"] {
            self.field("decimal", number, ["0", "1", "32766", "32767"].contains(&number));
        }
        for digits in [0, 1, 5, 6, 15, 16, 17, 18, 33] {
            self.field("binary digits", &format!("'{}", "1".repeat(digits)), (1..=16).contains(&digits));
            self.field("octal digits", &format!("#{}", "7".repeat(digits)), (1..=5).contains(&digits));
        }
        let parts = ["b<0>", "b<7>", "b<0:7>", "b<7:7>", "d<15>", "a<0:0>", "b < 0 : 3 >"];
        let bad = [
            "b<8>", "b<0:8>", "b<4:3>", "b<07>", "b<00>", "d<16>", "a<1>", "b<>", "b<1:>", "b<:1>", "b<#1>", "M<1>", "M[a]<1>",
            "(b)<1>", "b<1", "b<-1>", "b<7:0>",
        ];
        for part in parts.iter().chain(&bad) {
            self.field("bit number", part, parts.contains(part));
            let answer = if parts.contains(part) { [0, 0] } else { [5, FIRST_ROW] };
            self.add("bit number", format!("{}do\t1\t{}\t1\n", REGISTERS, part), answer);
        }
    }

    /// Two faults at once: which one is told.
    fn order(&mut self) {
        let name = "order of refusals";
        let rows = |count: usize| format!("rows\t1\nreg\tRUN\t1\n{}", "do\t1\tRUN\tRUN\n".repeat(count));
        self.add(name, format!("{}do\t1\tRUN\tx\n", rows(128)), [5, 131]);
        self.add(name, format!("{}go\t1\t9\n", rows(128)), [6, 131]);
        self.add(name, format!("{}go\tx\t9\n", rows(128)), [5, 131]);
        self.add(name, format!("{}do\t1\tRUN\n", rows(128)), [3, 131]);
        self.add(name, format!("{}go\t1\tup\n", rows(129)), [7, 131]);
        self.add(name, "rows\t1\nreg\tRUN\t2\ngo\t1\tx\n".to_string(), [6, 3]);
        self.add(name, "rows\t1\nreg\tRUN\t1\nat\tx\ngo\t1\tx\n".to_string(), [6, 4]);
        self.add(name, "rows\t1\nreg\tRUN\t1\ngo\t1\tRUN\nat\tRUN\n".to_string(), [6, 4]);
        self.add(name, "rows\t1\nreg\tRUN\t1\ngo\t1\tx\ngo\t1\ty\nat\ty\ndo\t1\tz\t1\n".to_string(), [5, 6]);
        self.add(name, "rows\t1\nreg\tRUN\t2\n".to_string(), [8, 3]);
        self.add(name, "rows\t1\n".to_string(), [8, 2]);
        self.add(name, "rows\t1".to_string(), [3, 1]);
        self.add(name, String::new(), [2, 1]);
        self.add(name, "rows\t1\r\n".to_string(), [2, 1]);
        self.add(name, "rows\t1\nreg\tRUN\t1\ndo\t1\tRUN\t1".to_string(), [3, 3]);
        self.add(name, "rows\t1\nreg\tRUN\t1\nat\tx\nreg\t9\t99\n".to_string(), [3, 4]);
        self.add(name, "rows\t1\nreg\tRUN\t1\nat\t\n".to_string(), [3, 3]);
        let labels: String = (0..32).map(|n| format!("at\tl{}\n", n)).collect();
        self.add(name, format!("rows\t1\nreg\tRUN\t1\n{}at\tl0\n", labels), [6, 35]);
        let registers: String = (0..15).map(|n| format!("reg\tr{}\t1\n", n)).collect();
        self.add(name, format!("rows\t1\nreg\tRUN\t1\n{}reg\tr0\t1\n", registers), [4, 18]);
        self.add(name, format!("rows\t1\nreg\tRUN\t1\n{}reg\tAnd\t1\n", registers), [4, 18]);
    }
}
