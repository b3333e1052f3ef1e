//! The lexer: a program's bytes as tokens.

/// What a token is. A minus and the digits behind it are two tokens.
#[derive(Clone, Copy, Debug, PartialEq, Eq)]
pub enum Kind {
    Name,
    Digits,
    /// A string constant with both its quotes.
    Text,
    Def,
    Var,
    If,
    While,
    Foreach,
    In,
    Do,
    Return,
    None,
    True,
    False,
    Join,
    Plus,
    Minus,
    Times,
    Over,
    Percent,
    ShiftRight,
    ShiftLeft,
    Equal,
    Unequal,
    Greater,
    Less,
    Assign,
    Dot,
    Comma,
    Semicolon,
    OpenParen,
    CloseParen,
    OpenBracket,
    CloseBracket,
    OpenBrace,
    CloseBrace,
}

/// A token covers the bytes from `start` up to, not including, `end`.
#[derive(Clone, Copy, Debug, PartialEq, Eq)]
pub struct Token {
    pub kind: Kind,
    pub start: usize,
    pub end: usize,
}

impl Token {
    /// The part of the program that the token covers.
    pub fn spelling<'a>(&self, program: &'a [u8]) -> &'a [u8] {
        &program[self.start..self.end]
    }
}

/// All tokens of a program, or the first byte at which none begins though
/// one should.
pub fn tokens(program: &[u8]) -> Result<Vec<Token>, usize> {
    let mut found = Vec::new();
    let mut at = 0;
    while at < program.len() {
        if is_white(program[at]) {
            at += 1;
            continue;
        }
        let (kind, length) = longest(&program[at..]).ok_or(at)?;
        found.push(Token {
            kind,
            start: at,
            end: at + length,
        });
        at += length;
    }
    Ok(found)
}

/// White space is space, tab and linefeed; a carriage return is not.
pub fn is_white(byte: u8) -> bool {
    matches!(byte, b' ' | b'\t' | b'\n')
}

/// The longest token at the front of `rest`, with its length.
fn longest(rest: &[u8]) -> Option<(Kind, usize)> {
    match rest.first()? {
        b'A'..=b'Z' | b'a'..=b'z' => {
            let length = name_length(rest);
            Some((word(&rest[..length]), length))
        }
        b'0'..=b'9' => Some((Kind::Digits, run_length(rest, |b| b.is_ascii_digit()))),
        b'"' => text(rest),
        _ => sign(rest),
    }
}

/// The length of the name at the front, 0 if there is none.
fn name_length(rest: &[u8]) -> usize {
    match rest.first() {
        Some(first) if first.is_ascii_alphabetic() => {
            run_length(rest, |b| b.is_ascii_alphanumeric())
        }
        _ => 0,
    }
}

fn run_length(rest: &[u8], belongs: impl Fn(u8) -> bool) -> usize {
    rest.iter().take_while(|byte| belongs(**byte)).count()
}

/// A reserved word, or else a name.
fn word(spelling: &[u8]) -> Kind {
    match spelling {
        b"def" => Kind::Def,
        b"var" => Kind::Var,
        b"if" => Kind::If,
        b"while" => Kind::While,
        b"foreach" => Kind::Foreach,
        b"in" => Kind::In,
        b"do" => Kind::Do,
        b"return" => Kind::Return,
        b"none" => Kind::None,
        b"true" => Kind::True,
        b"false" => Kind::False,
        _ => Kind::Name,
    }
}

/// A quote, a name and a quote with nothing between them.
fn text(rest: &[u8]) -> Option<(Kind, usize)> {
    let inside = name_length(rest.get(1..)?);
    if inside == 0 || rest.get(1 + inside) != Some(&b'"') {
        return None;
    }
    Some((Kind::Text, inside + 2))
}

fn sign(rest: &[u8]) -> Option<(Kind, usize)> {
    let two = match rest {
        [b'+', b'+', ..] => Some(Kind::Join),
        [b'>', b'>', ..] => Some(Kind::ShiftRight),
        [b'<', b'<', ..] => Some(Kind::ShiftLeft),
        [b'=', b'=', ..] => Some(Kind::Equal),
        [b'!', b'=', ..] => Some(Kind::Unequal),
        _ => None,
    };
    if let Some(kind) = two {
        return Some((kind, 2));
    }
    let one = match rest.first()? {
        b'+' => Kind::Plus,
        b'-' => Kind::Minus,
        b'*' => Kind::Times,
        b'/' => Kind::Over,
        b'%' => Kind::Percent,
        b'>' => Kind::Greater,
        b'<' => Kind::Less,
        b'=' => Kind::Assign,
        b'.' => Kind::Dot,
        b',' => Kind::Comma,
        b';' => Kind::Semicolon,
        b'(' => Kind::OpenParen,
        b')' => Kind::CloseParen,
        b'[' => Kind::OpenBracket,
        b']' => Kind::CloseBracket,
        b'{' => Kind::OpenBrace,
        b'}' => Kind::CloseBrace,
        _ => return None,
    };
    Some((one, 1))
}
