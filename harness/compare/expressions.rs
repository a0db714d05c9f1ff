//! Random expressions and destinations from the grammar, as tokens, within the limits that are asked for.

use crate::random::Random;

/// A register to write texts with.
#[derive(Clone)]
pub struct Register {
    pub name: String,
    pub width: u8,
}

pub type Tokens = Vec<String>;

/// Strengths of the operators: Or weakest, Not strongest.
const OR: u8 = 1;
const AND: u8 = 2;
const COMPARE: u8 = 3;
const ADD: u8 = 4;
const ROTATE: u8 = 5;
const JOIN: u8 = 6;
const OPERAND: u8 = 7;

/// Writes one expression.
pub struct Writer<'a> {
    pub random: &'a mut Random,
    pub registers: &'a [Register],
    /// Pieces that may still be used.
    pub pieces: usize,
    /// Brackets, parentheses and Nots that may still be opened.
    pub depth: usize,
    pub tokens: Tokens,
}

/// Tokens of an expression of at most so many pieces, brackets and bits.
pub fn expression(random: &mut Random, registers: &[Register], pieces: usize, depth: usize, width: u8) -> Tokens {
    let mut writer = Writer { random, registers, pieces: pieces - 1, depth, tokens: Vec::new() };
    writer.part(width, OR);
    writer.tokens
}

/// A register, a bit part, or a memory word with an address.
pub fn destination(random: &mut Random, registers: &[Register], pieces: usize, depth: usize) -> Tokens {
    if registers.is_empty() || random.once_in(4) {
        let mut tokens = vec!["M".to_string(), "[".to_string()];
        tokens.extend(expression(random, registers, pieces, depth, 16));
        tokens.push("]".to_string());
        return tokens;
    }
    let register = random.pick(registers).clone();
    if register.name == "RUN" && !random.once_in(8) {
        return destination(random, registers, pieces, depth);
    }
    named(random, &register, 16)
}

/// Or of two comparisons, mostly of one register or bit part with constants that differ in one bit.
pub fn alternatives(random: &mut Random, registers: &[Register]) -> Tokens {
    let register = random.pick(registers).clone();
    let bits = register.width.min(5);
    let one = random.bits(bits);
    let other = if random.once_in(4) { random.bits(bits) } else { one ^ 1 << random.below(bits as usize) };
    let left = named(random, &register, 16);
    let right = if random.once_in(6) { named(random, &register, 16) } else { left.clone() };
    let mut tokens = Vec::new();
    for (side, constant) in [(left, one), (right, other)] {
        if !tokens.is_empty() {
            tokens.push(if random.once_in(6) { "And" } else { "Or" }.to_string());
        }
        tokens.extend(side);
        tokens.push(if random.once_in(6) { "Neq" } else { "Eql" }.to_string());
        tokens.push(format!("'{:0width$b}", constant, width = bits as usize));
    }
    tokens
}

/// A register or a bit part of it, no wider than asked for.
fn named(random: &mut Random, register: &Register, width: u8) -> Tokens {
    let mut tokens = vec![register.name.clone()];
    if register.width <= width && !random.once_in(3) {
        return tokens;
    }
    let length = random.between(1, width.min(register.width) as usize);
    let first = random.below(register.width as usize - length + 1);
    tokens.extend(["<".to_string(), first.to_string()]);
    if length > 1 || random.once_in(4) {
        tokens.extend([":".to_string(), (first + length - 1).to_string()]);
    }
    tokens.push(">".to_string());
    tokens
}

/// A constant no wider than asked for.
fn constant(random: &mut Random, width: u8) -> String {
    let style = random.below(3);
    if style == 0 && width >= 3 {
        let digits = random.between(1, (width as usize / 3).min(5));
        return (0..digits).fold("#".to_string(), |text, _| text + &random.bits(3).to_string());
    }
    if style == 1 && width >= 2 {
        let bits = random.between(1, width as usize - 1) as u8;
        return random.bits(bits).to_string();
    }
    let digits = random.between(1, width as usize);
    (0..digits).fold("'".to_string(), |text, _| text + &random.bits(1).to_string())
}

impl<'a> Writer<'a> {
    fn token(&mut self, token: &str) {
        self.tokens.push(token.to_string());
    }

    /// An expression that has its first piece paid for, in a place that takes operators from this strength on.
    fn part(&mut self, width: u8, strength: u8) {
        let kind = if self.pieces == 0 { 0 } else { self.random.below(16) };
        match kind {
            0..=3 => self.leaf(width),
            4 if width >= 12 && self.depth > 0 => self.word(),
            5 if self.depth > 0 => self.not(width),
            6 if self.depth > 0 => self.parentheses(width),
            7 if self.pieces >= 2 && width >= 2 => self.two("@", JOIN, width, strength),
            8 | 9 if self.pieces >= 2 => self.rotation(width, strength),
            10 if self.pieces >= 2 && width >= 2 => self.two("+", ADD, width, strength),
            11 | 12 if self.pieces >= 2 => {
                let name = *self.random.pick(&["Eql", "Neq", "Lss"]);
                self.two(name, COMPARE, width, strength)
            }
            13 if self.pieces >= 2 => self.two("And", AND, width, strength),
            14 if self.pieces >= 2 => self.two("Or", OR, width, strength),
            _ => self.leaf(width),
        }
    }

    fn leaf(&mut self, width: u8) {
        if self.registers.is_empty() || self.random.once_in(3) {
            let text = constant(self.random, width);
            self.tokens.push(text);
        } else {
            let register = self.random.pick(self.registers).clone();
            let tokens = named(self.random, &register, width);
            self.tokens.extend(tokens);
        }
    }

    fn word(&mut self) {
        self.pieces -= 1;
        self.depth -= 1;
        self.token("M");
        self.token("[");
        self.part(16, OR);
        self.token("]");
        self.depth += 1;
    }

    fn not(&mut self, width: u8) {
        self.pieces -= 1;
        self.depth -= 1;
        self.token("Not");
        self.part(width, OPERAND);
        self.depth += 1;
    }

    fn parentheses(&mut self, width: u8) {
        self.depth -= 1;
        self.token("(");
        self.part(width, OR);
        self.token(")");
        self.depth += 1;
    }

    /// Whether an operator of strength `own` needs parentheses here; opens them if they can be had.
    fn opened(&mut self, own: u8, strength: u8) -> Option<bool> {
        if own >= strength {
            return Some(false);
        }
        if self.depth == 0 {
            return None;
        }
        self.depth -= 1;
        self.token("(");
        Some(true)
    }

    fn closed(&mut self, opened: bool) {
        if opened {
            self.token(")");
            self.depth += 1;
        }
    }

    fn rotation(&mut self, width: u8, strength: u8) {
        let opened = match self.opened(ROTATE, strength) {
            None => return self.leaf(width),
            Some(opened) => opened,
        };
        self.pieces -= 2;
        self.part(width, ROTATE);
        let name = *self.random.pick(&["Slr", "Srr"]);
        self.token(name);
        let count = self.random.below(16).to_string();
        self.tokens.push(count);
        self.closed(opened);
    }

    /// A two-sided operator, grouped from the left.
    fn two(&mut self, name: &str, own: u8, width: u8, strength: u8) {
        let opened = match self.opened(own, strength) {
            None => return self.leaf(width),
            Some(opened) => opened,
        };
        self.pieces -= 2;
        let (left, right) = match own {
            JOIN => {
                let left = self.random.between(1, width as usize - 1) as u8;
                (left, width - left)
            }
            ADD => (width - 1, width - 1),
            COMPARE => (16, 16),
            _ => (width, width),
        };
        let kept = self.pieces;
        self.pieces /= 2;
        self.part(left, own);
        self.pieces += kept - kept / 2;
        self.token(name);
        self.part(right, own + 1);
        self.closed(opened);
    }
}

fn in_run(byte: u8) -> bool {
    byte.is_ascii_alphanumeric() || byte == b'.'
}

/// Tokens as text, with the spaces that are needed and some that are not.
pub fn spaced(random: &mut Random, tokens: &[String]) -> String {
    let style = random.below(4);
    let mut text = String::new();
    for token in tokens {
        let first = token.as_bytes()[0];
        let last = text.bytes().last();
        let needed = last.map_or(false, in_run) && in_run(first);
        let wanted = match style {
            0 => needed,
            1 => needed || random.once_in(6),
            _ => needed || "@+=".contains(token.as_str()) || ends_operator(&text) || token.len() == 3 && first.is_ascii_uppercase(),
        };
        if last.is_some() && wanted {
            text.push(' ');
            if style == 1 && random.once_in(8) {
                text.push_str("  ");
            }
        }
        text.push_str(token);
    }
    text
}

fn ends_operator(text: &str) -> bool {
    text.ends_with(|c| "@+lqdr".contains(c))
}
