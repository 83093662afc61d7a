//! The tokens of a plan text, one at a time.

#[derive(Clone, Copy, PartialEq)]
pub enum Token {
    End,
    /// A byte or a digit run that is no token (ground 3).
    Bad,
    /// One of `[ ] ( ) @ ? ~ & | : / #`.
    Sign(u8),
    Relation(u8),
    Right,
    Left,
    Both,
    Upper(u8),
    Lower(u8),
    /// Above 64 any number stands as 65.
    Number(u8),
}

/// Whether a byte occurs in some token or is a blank (else ground 2).
pub fn known(byte: u8) -> bool {
    byte.is_ascii_alphanumeric()
        || matches!(byte, b' ' | b'\n' | b'<' | b'>' | b'=' | b'!' | b'-')
        || matches!(byte, b'[' | b']' | b'(' | b')' | b'@' | b'?' | b'~' | b'&' | b'|' | b':' | b'/' | b'#')
}

pub struct Tokens<'a> {
    text: &'a [u8],
    at: usize,
    /// The token not yet taken.
    pub next: Token,
}

impl<'a> Tokens<'a> {
    pub fn of(text: &'a [u8]) -> Self {
        let mut tokens = Tokens { text, at: 0, next: Token::End };
        tokens.advance();
        tokens
    }

    fn byte(&self, ahead: usize) -> u8 {
        self.text.get(self.at + ahead).copied().unwrap_or(b' ')
    }

    pub fn advance(&mut self) {
        while self.at < self.text.len() && matches!(self.text[self.at], b' ' | b'\n') {
            self.at += 1;
        }
        if self.at == self.text.len() {
            self.next = Token::End;
            return;
        }
        let (token, length) = match (self.byte(0), self.byte(1), self.byte(2)) {
            (c @ b'A'..=b'Z', ..) => (Token::Upper(c - b'A'), 1),
            (c @ b'a'..=b'z', ..) => (Token::Lower(c - b'a'), 1),
            (b'0'..=b'9', ..) => self.number(),
            (b'<', b'-', b'>') => (Token::Both, 3),
            (b'<', b'-', _) => (Token::Left, 2),
            (b'-', b'>', _) => (Token::Right, 2),
            (b'<', b'=', _) => (Token::Relation(1), 2),
            (b'<', ..) => (Token::Relation(0), 1),
            (b'=', ..) => (Token::Relation(2), 1),
            (b'!', b'=', _) => (Token::Relation(3), 2),
            (b'>', b'=', _) => (Token::Relation(4), 2),
            (b'>', ..) => (Token::Relation(5), 1),
            (b'-' | b'!', ..) => (Token::Bad, 1),
            (sign, ..) => (Token::Sign(sign), 1),
        };
        self.next = token;
        self.at += length;
    }

    fn number(&self) -> (Token, usize) {
        let run = &self.text[self.at..];
        let length = run.iter().position(|b| !b.is_ascii_digit()).unwrap_or(run.len());
        let value = run[..length].iter().fold(0u32, |value, b| (10 * value + u32::from(b - b'0')).min(65));
        if length > 1 && run[0] == b'0' {
            return (Token::Bad, length);
        }
        (Token::Number(value as u8), length)
    }
}
