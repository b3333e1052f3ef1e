//! A drawing cut into tokens for messages: where a mark ends, and what stands before and behind a place. The library has judged the drawing already.

/// A token, or what stands in the place of one.
#[derive(Clone, Copy)]
pub struct Token<'a> {
    pub start: usize,
    pub text: &'a [u8],
}

impl Token<'_> {
    pub fn is(&self, text: &str) -> bool {
        self.text == text.as_bytes()
    }

    pub fn is_one_of(&self, texts: &[&str]) -> bool {
        texts.iter().any(|text| self.is(text))
    }

    pub fn end(&self) -> usize {
        self.start + self.text.len()
    }

    /// Letters and digits that begin with a letter, a reserved word or not.
    pub fn is_word(&self) -> bool {
        self.text.first().is_some_and(u8::is_ascii_alphabetic)
    }

    pub fn is_number(&self) -> bool {
        self.text.first().is_some_and(u8::is_ascii_digit)
    }

    pub fn is_string(&self) -> bool {
        self.text.first() == Some(&b'"')
    }

    pub fn is_reserved(&self) -> bool {
        self.is_one_of(&["def", "var", "if", "while", "foreach", "in", "do", "return", "none", "true", "false"])
    }

    pub fn is_name(&self) -> bool {
        self.is_word() && !self.is_reserved()
    }

    pub fn is_operator(&self) -> bool {
        self.is_one_of(&["++", "+", "-", "*", "/", "%", ">>", "<<", "==", "!=", ">", "<"])
    }

    /// Whether an operand can end here.
    pub fn ends_operand(&self) -> bool {
        let constant = self.is_one_of(&["none", "true", "false"]);
        self.is_name() || constant || self.is_number() || self.is_string() || self.is_one_of(&[")", "]"])
    }

    pub fn shown(&self) -> String {
        String::from_utf8_lossy(self.text).replace(char::is_control, "\u{fffd}")
    }
}

/// All tokens of a program.
pub fn tokens(program: &[u8]) -> Vec<Token<'_>> {
    let mut found = Vec::new();
    let mut at = 0;
    while at < program.len() {
        let length = length(&program[at..]);
        if length > 0 {
            found.push(Token { start: at, text: &program[at..at + length] });
        }
        at += length.max(1);
    }
    found
}

/// How long the token is that begins a text; 0 for white space.
fn length(text: &[u8]) -> usize {
    let while_in = |belongs: fn(&u8) -> bool| text.iter().take_while(|byte| belongs(byte)).count();
    match text[0] {
        b' ' | b'\t' | b'\n' => 0,
        b'A'..=b'Z' | b'a'..=b'z' => while_in(u8::is_ascii_alphanumeric),
        b'0'..=b'9' => while_in(u8::is_ascii_digit),
        b'"' => string_length(text),
        0x80.. => (2..=4).find(|size| text.get(..*size).is_some_and(|t| std::str::from_utf8(t).is_ok())).unwrap_or(1),
        _ => match text.get(..2) {
            Some(b"++" | b">>" | b"<<" | b"==" | b"!=") => 2,
            _ => 1,
        },
    }
}

/// To the closing quote, or to the end of the line where there is none.
fn string_length(text: &[u8]) -> usize {
    let line = text.iter().position(|byte| *byte == b'\n').unwrap_or(text.len());
    match text[1..line].iter().position(|byte| *byte == b'"') {
        Some(quote) => quote + 2,
        None => line,
    }
}

/// Where the statement ends that begins with the first of some tokens: at its `;`, behind the test of an `if` or `while`, behind the parameters of `def`, at
/// the `do` of a foreach, at the brace of a block.
pub fn statement<'a, 'b>(tokens: &'b [Token<'a>]) -> &'b [Token<'a>] {
    let mut depth = 0;
    let Some(first) = tokens.first() else {
        return tokens;
    };
    let headed = first.is_one_of(&["if", "while", "def"]);
    for (index, token) in tokens.iter().enumerate() {
        depth += token.is_one_of(&["(", "["]) as usize;
        let closes = token.is_one_of(&[")", "]"]);
        depth = depth.saturating_sub(closes as usize);
        let ends = match headed {
            true => closes && depth == 0,
            false => token.is_one_of(&[";", "{", "do"]),
        };
        if ends {
            return &tokens[..=index];
        }
    }
    tokens
}
