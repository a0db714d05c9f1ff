//! Expressions and destinations: from tokens to trees with widths, pieces and nesting counted.

use crate::constants::constant;
use crate::lines::decimal;
use crate::tokens::{tokens, Token};

/// The widest value.
pub const WIDEST: u8 = 16;
/// Brackets, parentheses and Nots open at once.
pub const DEEPEST: usize = 8;
/// Pieces of an expression.
pub const PIECES: usize = 32;

/// A declared register.
#[derive(Clone, PartialEq, Eq, Debug)]
pub struct Register {
    pub name: Vec<u8>,
    pub width: u8,
}

/// A register's bits from `first` to `last`, bit 0 the leftmost of its width; `whole` if the text names no bits.
#[derive(Clone, Copy, PartialEq, Eq, Debug)]
pub struct Part {
    pub register: usize,
    pub first: u8,
    pub last: u8,
    pub of: u8,
    pub whole: bool,
}

#[derive(Clone, Copy, PartialEq, Eq, Debug)]
pub enum Binary {
    Join,
    Add,
    Eql,
    Neq,
    Lss,
    And,
    Or,
}

#[derive(Clone, PartialEq, Eq, Debug)]
pub enum Kind {
    Part(Part),
    Constant(u16),
    Word(Box<Expression>),
    Not(Box<Expression>),
    /// Left or right, by a count as written.
    Rotate { left: bool, of: Box<Expression>, count: u8 },
    Two(Binary, Box<Expression>, Box<Expression>),
}

#[derive(Clone, PartialEq, Eq, Debug)]
pub struct Expression {
    pub kind: Kind,
    pub width: u8,
}

#[derive(Clone, PartialEq, Eq, Debug)]
pub enum Destination {
    Part(Part),
    Word(Expression),
}

/// Strengths: Or 1, And 2, comparisons 3, + 4, rotations 5, @ 6.
const WEAKEST: u8 = 1;
const ROTATION: u8 = 5;
const STRONGEST: u8 = 6;

/// Reads one field; the counts are of the expression that is being read.
struct Reader<'a> {
    tokens: Vec<Token<'a>>,
    at: usize,
    registers: &'a [Register],
    depth: usize,
    pieces: usize,
}

/// A field's expression and its pieces, or `None`, which is refusal 5.
pub fn expression(field: &[u8], registers: &[Register]) -> Option<(Expression, usize)> {
    let mut reader = Reader { tokens: tokens(field)?, at: 0, registers, depth: 0, pieces: 0 };
    let found = reader.level(WEAKEST)?;
    reader.ended()?;
    Some((found, reader.pieces))
}

/// A field's destination and the pieces of its address, if it has one.
pub fn destination(field: &[u8], registers: &[Register]) -> Option<(Destination, usize)> {
    let mut reader = Reader { tokens: tokens(field)?, at: 0, registers, depth: 0, pieces: 0 };
    let found = match reader.next()? {
        Token::Run(b"M") => {
            reader.mark(b'[')?;
            let address = reader.level(WEAKEST)?;
            reader.mark(b']')?;
            Destination::Word(address)
        }
        Token::Run(name) => Destination::Part(reader.part(name)?),
        _ => return None,
    };
    reader.ended()?;
    Some((found, reader.pieces))
}

impl<'a> Reader<'a> {
    fn peek(&self) -> Option<Token<'a>> {
        self.tokens.get(self.at).copied()
    }

    fn next(&mut self) -> Option<Token<'a>> {
        let token = self.peek()?;
        self.at += 1;
        Some(token)
    }

    fn ended(&self) -> Option<()> {
        if self.at == self.tokens.len() { Some(()) } else { None }
    }

    fn mark(&mut self, byte: u8) -> Option<()> {
        if self.next()? == Token::Mark(byte) { Some(()) } else { None }
    }

    fn piece(&mut self) -> Option<()> {
        self.pieces += 1;
        if self.pieces <= PIECES { Some(()) } else { None }
    }

    fn open(&mut self) -> Option<()> {
        self.depth += 1;
        if self.depth <= DEEPEST { Some(()) } else { None }
    }

    fn close(&mut self) {
        self.depth -= 1;
    }

    /// Operators of this strength, grouped from the left.
    fn level(&mut self, strength: u8) -> Option<Expression> {
        if strength > STRONGEST {
            return self.operand();
        }
        let mut left = self.level(strength + 1)?;
        while let Some(token) = self.peek() {
            if strength == ROTATION {
                let to_left = match token {
                    Token::Run(b"Slr") => true,
                    Token::Run(b"Srr") => false,
                    _ => break,
                };
                left = self.rotation(left, to_left)?;
            } else {
                let operator = match two_sided(token) {
                    Some((operator, s)) if s == strength => operator,
                    _ => break,
                };
                self.at += 1;
                self.piece()?;
                let right = self.level(strength + 1)?;
                left = two(operator, left, right)?;
            }
        }
        Some(left)
    }

    /// `Slr` or `Srr` and its count, which is a constant and so a piece.
    fn rotation(&mut self, of: Expression, left: bool) -> Option<Expression> {
        self.at += 1;
        self.piece()?;
        let count = match self.next()? {
            Token::Run(run) => decimal(run, 15)? as u8,
            _ => return None,
        };
        self.piece()?;
        let width = of.width;
        Some(Expression { kind: Kind::Rotate { left, of: Box::new(of), count }, width })
    }

    fn operand(&mut self) -> Option<Expression> {
        match self.next()? {
            Token::Run(b"Not") => {
                self.piece()?;
                self.open()?;
                let of = self.operand()?;
                self.close();
                let width = of.width;
                Some(Expression { kind: Kind::Not(Box::new(of)), width })
            }
            Token::Mark(b'(') => self.bracketed(b')'),
            Token::Run(b"M") => {
                self.piece()?;
                self.mark(b'[')?;
                let address = self.bracketed(b']')?;
                Some(Expression { kind: Kind::Word(Box::new(address)), width: 12 })
            }
            Token::Constant { value, width } => {
                self.piece()?;
                Some(Expression { kind: Kind::Constant(value), width })
            }
            Token::Run(run) if run[0].is_ascii_digit() => {
                self.piece()?;
                let (value, width) = constant(run)?;
                Some(Expression { kind: Kind::Constant(value), width })
            }
            Token::Run(name) => {
                self.piece()?;
                let part = self.part(name)?;
                Some(Expression { kind: Kind::Part(part), width: part.last - part.first + 1 })
            }
            Token::Mark(_) => None,
        }
    }

    /// What stands after an open bracket or parenthesis, and its end.
    fn bracketed(&mut self, end: u8) -> Option<Expression> {
        self.open()?;
        let found = self.level(WEAKEST)?;
        self.mark(end)?;
        self.close();
        Some(found)
    }

    /// A register's name, with its bit part if one follows.
    fn part(&mut self, name: &[u8]) -> Option<Part> {
        let register = self.registers.iter().position(|r| r.name == name)?;
        let of = self.registers[register].width;
        if self.peek() != Some(Token::Mark(b'<')) {
            return Some(Part { register, first: 0, last: of - 1, of, whole: true });
        }
        self.at += 1;
        let first = self.bit(of)?;
        let last = match self.next()? {
            Token::Mark(b'>') => return Some(Part { register, first, last: first, of, whole: false }),
            Token::Mark(b':') => self.bit(of)?,
            _ => return None,
        };
        self.mark(b'>')?;
        if first <= last { Some(Part { register, first, last, of, whole: false }) } else { None }
    }

    fn bit(&mut self, width: u8) -> Option<u8> {
        match self.next()? {
            Token::Run(run) => Some(decimal(run, u32::from(width) - 1)? as u8),
            _ => None,
        }
    }
}

/// A two-sided operator other than a rotation, with its strength.
fn two_sided(token: Token) -> Option<(Binary, u8)> {
    match token {
        Token::Mark(b'@') => Some((Binary::Join, 6)),
        Token::Mark(b'+') => Some((Binary::Add, 4)),
        Token::Run(b"Eql") => Some((Binary::Eql, 3)),
        Token::Run(b"Neq") => Some((Binary::Neq, 3)),
        Token::Run(b"Lss") => Some((Binary::Lss, 3)),
        Token::Run(b"And") => Some((Binary::And, 2)),
        Token::Run(b"Or") => Some((Binary::Or, 1)),
        _ => None,
    }
}

/// Joins two sides, unless the width passes 16.
fn two(operator: Binary, left: Expression, right: Expression) -> Option<Expression> {
    let wider = left.width.max(right.width);
    let width = match operator {
        Binary::Join => left.width + right.width,
        Binary::Add => wider + 1,
        Binary::Eql | Binary::Neq | Binary::Lss => 1,
        Binary::And | Binary::Or => wider,
    };
    if width > WIDEST {
        return None;
    }
    Some(Expression { kind: Kind::Two(operator, Box::new(left), Box::new(right)), width })
}
