//! From bytes to tokens.

use crate::diagnostic::Diagnostic;
use crate::tree::{Node, Span};

/// A token.
#[derive(Clone, PartialEq, Eq, Debug)]
pub enum Token {
    /// A keyword, or a language range such as `en-*`.
    Word(String),
    /// A variable, without its `$`.
    Variable(String),
    /// An IRI between angular brackets.
    Iri(String),
    /// A prefix name and what follows its colon.
    Prefixed(String, String),
    /// A number.
    Number(String),
    /// A text between quotes, and its language tag.
    Text(String, String),
    /// A date with a time.
    Time(String),
    /// A sign.
    Sign(&'static str),
    /// The end of the text.
    End,
}

impl Token {
    /// What an error calls it.
    pub fn describe(&self) -> String {
        match self {
            Token::Word(word) => format!("`{word}`"),
            Token::Variable(name) => format!("the variable `${name}`"),
            Token::Iri(iri) => format!("the IRI `<{iri}>`"),
            Token::Prefixed(name, local) => format!("`{name}:{local}`"),
            Token::Number(number) => format!("the number `{number}`"),
            Token::Text(..) => "a string".to_owned(),
            Token::Time(time) => format!("the dateTime `{time}`"),
            Token::Sign(sign) => format!("`{sign}`"),
            Token::End => "the end of the text".to_owned(),
        }
    }
}

/// The signs, longer ones first.
const SIGNS: [&str; 22] =
    ["||", "&&", "<=", ">=", "!=", "{", "}", "(", ")", ",", ";", ".", ":", "=", "<", ">", "!", "+", "-", "*", "|", "&"];
/// Bytes that do not stand in an IRI as they are.
const NOT_IN_IRI: &[u8] = b"<\"{}|^`";
/// How a dateTime begins: a digit at each zero.
const DATE: &[u8] = b"0000-00-00T";

type Lexed = Result<Token, Diagnostic>;

struct Lexer<'a> {
    text: &'a str,
    at: usize,
    /// Whether the last token ends an operand, so that a `-` after it is the sign of a difference.
    operand: bool,
}

/// All tokens of a text, the last being its end.
pub fn tokens(text: &str) -> Result<Vec<Node<Token>>, Diagnostic> {
    let mut lexer = Lexer { text, at: 0, operand: false };
    let mut found = Vec::new();
    loop {
        let last = lexer.at;
        lexer.skip_blanks();
        let start = lexer.at;
        let token = lexer.token()?;
        lexer.operand = ends_operand(&token);
        if token == Token::End {
            // the end is told where the last token ends, and not some lines below it
            found.push(Node::new(token, last..last));
            return Ok(found);
        }
        found.push(Node::new(token, start..lexer.at));
    }
}

fn ends_operand(token: &Token) -> bool {
    match token {
        Token::Sign(sign) => *sign == ")",
        Token::Word(word) => word == "now",
        Token::End => false,
        _ => true,
    }
}

fn is_word(b: u8) -> bool {
    b.is_ascii_alphanumeric() || b == b'_'
}

impl<'a> Lexer<'a> {
    fn rest(&self) -> &'a str {
        &self.text[self.at..]
    }

    fn byte(&self, ahead: usize) -> u8 {
        self.text.as_bytes().get(self.at + ahead).copied().unwrap_or(0)
    }

    /// Takes the bytes up to the first that does not fit.
    fn take(&mut self, fits: impl Fn(u8) -> bool) -> &'a str {
        let length = self.rest().bytes().position(|b| !fits(b)).unwrap_or(self.rest().len());
        let taken = &self.rest()[..length];
        self.at += length;
        taken
    }

    fn skip_blanks(&mut self) {
        loop {
            self.take(|b| b.is_ascii_whitespace());
            if self.byte(0) != b'#' {
                return;
            }
            self.take(|b| b != b'\n');
        }
    }

    fn token(&mut self) -> Lexed {
        match self.byte(0) {
            0 if self.rest().is_empty() => Ok(Token::End),
            b'$' => self.variable(),
            b'"' => self.string(),
            b'<' if self.iri_ahead() => self.iri(),
            b'0'..=b'9' => Ok(self.number()),
            b'-' if !self.operand && self.byte(1).is_ascii_digit() => Ok(self.number()),
            b'A'..=b'Z' | b'a'..=b'z' => Ok(self.word()),
            _ => self.sign(),
        }
    }

    fn sign(&mut self) -> Lexed {
        if let Some(sign) = SIGNS.into_iter().find(|sign| self.rest().starts_with(sign)) {
            self.at += sign.len();
            return Ok(Token::Sign(sign));
        }
        let c = self.rest().chars().next().unwrap_or_default();
        let message = format!("the character {c:?} begins nothing in a script");
        let error = Diagnostic::new(6, self.at..self.at + c.len_utf8(), message, "not expected here");
        Err(if c == '^' {
            error.help("a pattern stands between quotes, as in `regex($name, \"^Mal\")`")
        } else {
            error
        })
    }

    fn variable(&mut self) -> Lexed {
        let start = self.at;
        self.at += 1;
        let name = self.take(is_word);
        if name.is_empty() {
            let expected = "expected a letter or a digit after `$`";
            return Err(Diagnostic::new(6, start..start + 1, "a variable needs a name", expected).help("write `$name`"));
        }
        Ok(Token::Variable(name.to_owned()))
    }

    /// A word, or a prefix name with its colon and what follows. A word may go on with hyphens and end with `-*`.
    fn word(&mut self) -> Token {
        let name = self.take(|b| is_word(b) || b == b'-');
        if self.byte(0) == b':' {
            self.at += 1;
            let taken = self.take(|b| is_word(b) || b"-.:/~%".contains(&b));
            let local = taken.trim_end_matches('.');
            self.at -= taken.len() - local.len();
            return Token::Prefixed(name.to_owned(), local.to_owned());
        }
        let star = if name.ends_with('-') && self.byte(0) == b'*' { "*" } else { "" };
        self.at += star.len();
        Token::Word([name, star].concat())
    }

    fn number(&mut self) -> Token {
        let time = DATE.iter().enumerate().all(|(ahead, want)| {
            let b = self.byte(ahead);
            if *want == b'0' {
                b.is_ascii_digit()
            } else {
                b == *want
            }
        });
        if time {
            return Token::Time(self.take(|b| b.is_ascii_digit() || b"-:.TZ+".contains(&b)).to_owned());
        }
        let start = self.at;
        self.at += usize::from(self.byte(0) == b'-');
        self.take(|b| b.is_ascii_digit());
        if self.byte(0) == b'.' && self.byte(1).is_ascii_digit() {
            self.at += 1;
            self.take(|b| b.is_ascii_digit());
        }
        let signed = usize::from(matches!(self.byte(1), b'+' | b'-'));
        if matches!(self.byte(0), b'e' | b'E') && self.byte(1 + signed).is_ascii_digit() {
            self.at += 1 + signed;
            self.take(|b| b.is_ascii_digit());
        }
        Token::Number(self.text[start..self.at].to_owned())
    }

    /// Whether an IRI begins here, or `<` is a sign.
    fn iri_ahead(&self) -> bool {
        let end = self.rest()[1..].bytes().find(|b| *b == b'>' || b.is_ascii_whitespace() || NOT_IN_IRI.contains(b));
        end == Some(b'>')
    }

    fn iri(&mut self) -> Lexed {
        let start = self.at;
        self.at += 1;
        let raw = self.take(|b| b != b'>');
        self.at += 1;
        match unescaped(raw) {
            Some(iri) => Ok(Token::Iri(iri)),
            None => {
                let expected = "a `\\` begins `\\u` and four hexadecimal digits";
                Err(Diagnostic::new(2, start..self.at, "this IRI has a bad escape", expected))
            }
        }
    }

    fn string(&mut self) -> Lexed {
        let start = self.at;
        self.at += 1;
        let mut text = String::new();
        loop {
            text.push_str(self.take(|b| b != b'"' && b != b'\\' && b != b'\n'));
            match (self.byte(0), self.byte(1)) {
                (b'"', _) => break,
                (b'\\', escaped @ (b'"' | b'\\')) => text.push(char::from(escaped)),
                (b'\\', _) => return Err(self.bad_escape()),
                _ => return Err(self.unclosed(start)),
            }
            self.at += 2;
        }
        self.at += 1;
        let mut tag = "";
        if self.byte(0) == b'@' {
            self.at += 1;
            tag = self.take(|b| b.is_ascii_alphanumeric() || b == b'-');
        }
        Ok(Token::Text(text, tag.to_owned()))
    }

    fn bad_escape(&self) -> Diagnostic {
        let span: Span = self.at..(self.at + 2).min(self.text.len());
        Diagnostic::new(2, span, "a string has no such escape", "expected `\\\"` or `\\\\`")
    }

    fn unclosed(&self, start: usize) -> Diagnostic {
        let message = "this string has no end on its line";
        Diagnostic::new(6, start..self.at, message, "expected a closing `\"`")
            .help("a string stands on one line, between quotes")
    }
}

/// An IRI's text with its `\uXXXX` replaced; none where an escape is bad.
fn unescaped(raw: &str) -> Option<String> {
    let mut parts = raw.split('\\');
    let mut iri = parts.next()?.to_owned();
    for part in parts {
        let (digits, rest) = part.strip_prefix('u')?.split_at_checked(4)?;
        iri.push(char::from_u32(u32::from_str_radix(digits, 16).ok()?)?);
        iri.push_str(rest);
    }
    Some(iri)
}
