//! Tokens as a program's bytes, with more or less white space.

use crate::random::Random;

/// How much white space stands between tokens.
#[derive(Clone, Copy, Debug, PartialEq, Eq)]
pub enum Spacing {
    /// Only where two tokens would become one.
    Least,
    /// One space everywhere.
    Spaces,
    /// Any white space, or none where none is needed.
    Mixed,
    /// Lines, as a person writes them.
    Lines,
}

impl Spacing {
    pub fn any(random: &mut Random) -> Spacing {
        match random.weighted(&[40, 15, 20, 25]) {
            0 => Spacing::Least,
            1 => Spacing::Spaces,
            2 => Spacing::Mixed,
            _ => Spacing::Lines,
        }
    }
}

/// Writes tokens one behind the other. A constant with its minus is one text
/// here, so that nothing comes between the two.
pub fn write(tokens: &[String], spacing: Spacing, random: &mut Random) -> Vec<u8> {
    let mut bytes = Vec::new();
    if spacing == Spacing::Mixed {
        white(&mut bytes, random);
    }
    for token in tokens {
        if needs_space(&bytes, token) {
            match spacing {
                Spacing::Mixed => bytes.push(*random.pick(b" \t\n")),
                _ => bytes.push(b' '),
            }
        }
        bytes.extend_from_slice(token.as_bytes());
        match spacing {
            Spacing::Least => {}
            Spacing::Spaces => bytes.push(b' '),
            Spacing::Mixed => white(&mut bytes, random),
            Spacing::Lines => match token.as_str() {
                ";" | "{" | "}" => bytes.push(b'\n'),
                "," => bytes.push(b' '),
                _ => {}
            },
        }
    }
    bytes
}

/// Whether a token would run into the one before it.
fn needs_space(before: &[u8], token: &str) -> bool {
    let word = |byte: Option<&u8>| byte.is_some_and(u8::is_ascii_alphanumeric);
    word(before.last()) && word(token.as_bytes().first())
}

/// Some white space, or none.
fn white(bytes: &mut Vec<u8>, random: &mut Random) {
    if random.chance(600) {
        return;
    }
    for _ in 0..random.between(1, 4) {
        bytes.push(*random.pick(b"  \t\n"));
    }
}
