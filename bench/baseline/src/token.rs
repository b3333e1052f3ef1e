//! Tokens.

use crate::tree::Operator;

#[derive(Clone, Copy, PartialEq, Eq, Default)]
pub enum Kind {
    /// Behind the last token.
    #[default]
    End,
    Name,
    Digits,
    Text,
    Def,
    Var,
    If,
    While,
    Foreach,
    In,
    Do,
    Return,
    None,
    True,
    False,
    Operator(Op),
    Assign,
    Dot,
    Comma,
    Semicolon,
    OpenParen,
    CloseParen,
    OpenBracket,
    CloseBracket,
    OpenBrace,
    CloseBrace,
}

pub type Op = Operator;

#[derive(Clone, Copy, Default)]
pub struct Token {
    pub place: u16,
    pub size: u16,
    pub kind: Kind,
}

impl Token {
    pub fn end(self) -> usize {
        usize::from(self.place) + usize::from(self.size)
    }

    pub fn bytes(self, program: &[u8]) -> &[u8] {
        &program[usize::from(self.place)..self.end()]
    }
}

/// The token at the front of `rest`: its kind and size.
pub fn first(rest: &[u8]) -> Option<(Kind, usize)> {
    match rest[0] {
        b'A'..=b'Z' | b'a'..=b'z' => {
            let size = name_size(rest);
            Some((word(&rest[..size]), size))
        }
        b'0'..=b'9' => {
            let size = rest.iter().take_while(|b| b.is_ascii_digit()).count();
            Some((Kind::Digits, size))
        }
        b'"' => {
            let size = name_size(&rest[1..]);
            let closed = size > 0 && rest.get(size + 1) == Some(&b'"');
            closed.then_some((Kind::Text, size + 2))
        }
        _ => sign(rest),
    }
}

/// The size of the name at the front, 0 if there is none.
fn name_size(rest: &[u8]) -> usize {
    match rest.first() {
        Some(b) if b.is_ascii_alphabetic() => rest
            .iter()
            .take_while(|b| b.is_ascii_alphanumeric())
            .count(),
        _ => 0,
    }
}

fn word(name: &[u8]) -> Kind {
    match name {
        b"def" => Kind::Def,
        b"var" => Kind::Var,
        b"if" => Kind::If,
        b"while" => Kind::While,
        b"foreach" => Kind::Foreach,
        b"in" => Kind::In,
        b"do" => Kind::Do,
        b"return" => Kind::Return,
        b"none" => Kind::None,
        b"true" => Kind::True,
        b"false" => Kind::False,
        _ => Kind::Name,
    }
}

fn sign(rest: &[u8]) -> Option<(Kind, usize)> {
    let second = rest.get(1).copied().unwrap_or(0);
    let (kind, size) = match (rest[0], second) {
        (b'+', b'+') => (Kind::Operator(Op::Join), 2),
        (b'>', b'>') => (Kind::Operator(Op::ShiftRight), 2),
        (b'<', b'<') => (Kind::Operator(Op::ShiftLeft), 2),
        (b'=', b'=') => (Kind::Operator(Op::Equal), 2),
        (b'!', b'=') => (Kind::Operator(Op::Unequal), 2),
        (b'+', _) => (Kind::Operator(Op::Add), 1),
        (b'-', _) => (Kind::Operator(Op::Subtract), 1),
        (b'*', _) => (Kind::Operator(Op::Multiply), 1),
        (b'/', _) => (Kind::Operator(Op::Divide), 1),
        (b'%', _) => (Kind::Operator(Op::Remainder), 1),
        (b'>', _) => (Kind::Operator(Op::Greater), 1),
        (b'<', _) => (Kind::Operator(Op::Less), 1),
        (b'=', _) => (Kind::Assign, 1),
        (b'.', _) => (Kind::Dot, 1),
        (b',', _) => (Kind::Comma, 1),
        (b';', _) => (Kind::Semicolon, 1),
        (b'(', _) => (Kind::OpenParen, 1),
        (b')', _) => (Kind::CloseParen, 1),
        (b'[', _) => (Kind::OpenBracket, 1),
        (b']', _) => (Kind::CloseBracket, 1),
        (b'{', _) => (Kind::OpenBrace, 1),
        (b'}', _) => (Kind::CloseBrace, 1),
        _ => return None,
    };
    Some((kind, size))
}
