//! From tokens to the tree, by descent: a function for each rule of the grammar (owner/GRAMMAR.md).

mod filters;
mod header;
mod names;
mod queries;
mod scripts;

use crate::diagnostic::Diagnostic;
use crate::lexer::{tokens, Token};
use crate::tree::{Entry, Node, Source, Span};
use terms::Prefixes;
use willetcoffer::Term;

/// Braces and parentheses within each other, at most: far more than the records of a card can be deep.
const NESTING_LIMIT: usize = 100;

type Parsed<T> = Result<T, Diagnostic>;

struct Parser {
    tokens: Vec<Node<Token>>,
    at: usize,
    nesting: usize,
    prefixes: Prefixes,
    names: Vec<Node<String>>,
    terms: Vec<Node<Term>>,
    schema: Vec<Entry>,
}

/// Reads a text. What is wrong with its form, with a term or with a limit of the language is said here; scope and the card's limits are
/// said by [`encode`](crate::encode), types by [`check`](crate::check).
pub fn parse(text: &str) -> Result<Source, Diagnostic> {
    let mut parser = Parser {
        tokens: tokens(text)?,
        at: 0,
        nesting: 0,
        prefixes: Prefixes::default(),
        names: Vec::new(),
        terms: Vec::new(),
        schema: Vec::new(),
    };
    parser.header()?;
    let script = parser.script()?;
    if *parser.peek() != Token::End {
        return Err(parser.expected("`from named`, `select`, `do select`, `success`, `{` or the end"));
    }
    let Parser { prefixes, names, terms, schema, .. } = parser;
    Ok(Source { prefixes, names, terms, schema, script })
}

fn joined(first: &Span, last: &Span) -> Span {
    first.start..last.end
}

impl Parser {
    fn peek(&self) -> &Token {
        self.ahead(0)
    }

    /// The token so many places ahead; the end stands after the last one.
    fn ahead(&self, places: usize) -> &Token {
        &self.tokens[(self.at + places).min(self.tokens.len() - 1)].kind
    }

    fn span(&self) -> Span {
        self.tokens[self.at].span.clone()
    }

    /// The place of the token before.
    fn last_span(&self) -> Span {
        self.tokens[self.at.saturating_sub(1)].span.clone()
    }

    /// Goes past a token; the end is never passed.
    fn advance(&mut self) -> Span {
        let span = self.span();
        self.at = (self.at + 1).min(self.tokens.len() - 1);
        span
    }

    fn is_word(&self, word: &str) -> bool {
        matches!(self.peek(), Token::Word(found) if found == word)
    }

    fn is_sign(&self, sign: &str) -> bool {
        matches!(self.peek(), Token::Sign(found) if *found == sign)
    }

    fn take_sign(&mut self, sign: &str) -> bool {
        let found = self.is_sign(sign);
        if found {
            self.advance();
        }
        found
    }

    fn want_sign(&mut self, sign: &str) -> Parsed<Span> {
        if self.is_sign(sign) {
            return Ok(self.advance());
        }
        Err(self.expected(&format!("`{sign}`")))
    }

    fn want_word(&mut self, word: &str) -> Parsed<Span> {
        if self.is_word(word) {
            return Ok(self.advance());
        }
        Err(self.expected(&format!("`{word}`")))
    }

    fn expected(&self, what: &str) -> Diagnostic {
        let message = format!("{} is not expected here", self.peek().describe());
        Diagnostic::new(6, self.span(), message, format!("expected {what}"))
    }

    /// Goes one level deeper, and says where that is too deep.
    fn nested<T>(&mut self, inner: impl FnOnce(&mut Parser) -> Parsed<T>) -> Parsed<T> {
        if self.nesting == NESTING_LIMIT {
            let message = format!("more than {NESTING_LIMIT} groups within each other");
            return Err(Diagnostic::new(6, self.span(), message, "one too many"));
        }
        self.nesting += 1;
        let result = inner(self);
        self.nesting -= 1;
        result
    }
}
