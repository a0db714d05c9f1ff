//! Accepted texts of exact sizes: dense ones, with the longest names and as many tokens as the limits let in, and padded ones.

/// A register's name of 20 bytes.
fn name(n: usize) -> String {
    format!("register.{:011}", n).replace("register.0", "register.r")
}

/// A row of so many bytes, padded with spaces between its tokens.
fn row(n: usize, bytes: usize) -> String {
    let (a, b, c) = (name(n % 15), name((n + 4) % 15), name((n + 9) % 15));
    let start = format!("do\t{} Eql {}\t{}<0:6>\t{} @ '1", a, b, c, b);
    format!("{}{} Or #7", start, " ".repeat(bytes - start.len() - 6))
}

/// An accepted text of exactly so many bytes: rows of 8 pieces and 126 bytes, the last one longer.
pub fn dense(bytes: usize) -> Vec<u8> {
    let mut text = String::from("rows\t1\nreg\tRUN\t1\n");
    for n in 0..15 {
        text += &format!("reg\t{}\t{}\n", name(n), 11);
    }
    let each = 126;
    let mut rows = 0;
    while bytes - text.len() > 2 * each {
        text += &row(rows, each - 1);
        text.push('\n');
        rows += 1;
    }
    text += &row(rows, bytes - text.len() - 1);
    text.push('\n');
    text.into_bytes()
}

/// An accepted text of exactly so many bytes, nearly all of them spaces.
pub fn padded(bytes: usize) -> Vec<u8> {
    let mut text = String::from("rows\t1\nreg\tRUN\t1\n");
    while bytes - text.len() > 201 {
        let length = if bytes - text.len() > 221 { 200 } else { 150 };
        text += &format!("do\t1\tRUN\t(1{})\n", " ".repeat(length - 12));
    }
    text += &format!("do\t1\tRUN\t(1{})\n", " ".repeat(bytes - text.len() - 13));
    text.into_bytes()
}
