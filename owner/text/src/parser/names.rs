//! Variables and constants.

use super::{Parsed, Parser};
use crate::diagnostic::Diagnostic;
use crate::lexer::Token;
use crate::tree::{Name, Node, Span};
use terms::{date_time, number, IriError};
use willetcoffer::limits::{TAG_WIDTH, TEXT_WIDTH};
use willetcoffer::{BadTerm, Term};

impl Parser {
    /// A variable or a constant. A `-` right before a number is the number's, as nothing is taken from anything here.
    pub(super) fn term(&mut self) -> Parsed<Node<Name>> {
        let mut span = self.span();
        if let (Token::Sign("-"), Token::Number(digits)) = (self.peek(), self.ahead(1)) {
            let text = format!("-{digits}");
            self.advance();
            span.end = self.advance().end;
            let term = number(&text).map_err(|error| bad_term(&span, error.to_string()))?;
            return Ok(Node::new(Name::Constant(term), span));
        }
        let name = match self.peek().clone() {
            Token::Variable(name) => Name::Variable(name),
            Token::Iri(iri) => Name::Constant(self.iri(&iri, &span)?),
            Token::Prefixed(prefix, local) => Name::Constant(self.prefixed(&prefix, &local, &span)?),
            Token::Number(text) => Name::Constant(number(&text).map_err(|error| bad_term(&span, error.to_string()))?),
            Token::Time(text) => Name::Constant(date_time(&text).map_err(|error| bad_term(&span, error.to_string()))?),
            Token::Text(text, tag) => Name::Constant(string(&text, &tag, &span)?),
            _ => return Err(self.expected("a variable or a term")),
        };
        self.advance();
        Ok(Node::new(name, span))
    }

    fn prefixed(&self, prefix: &str, local: &str, span: &Span) -> Parsed<Term> {
        match self.prefixes.iri(prefix) {
            Some(start) => self.iri(&[start, local].concat(), span),
            None => {
                let message = format!("no prefix line says what {prefix}: stands for");
                let help = format!("write `prefix {prefix}: <http://..>` before the schema and the script");
                Err(Diagnostic::new(6, span.clone(), message, "unknown prefix").help(help))
            }
        }
    }

    fn iri(&self, iri: &str, span: &Span) -> Parsed<Term> {
        self.prefixes.term(iri).map_err(|error| {
            let help = match &error {
                IriError::Long { .. } => "a prefix line for a longer part of the IRI makes it fit".to_owned(),
                IriError::Ambiguous { prefix } => format!("give the prefix {prefix}: another name"),
                IriError::Empty | IriError::Character(_) => "a record holds the characters from `!` to `~`".to_owned(),
            };
            Diagnostic::new(2, span.clone(), "this IRI does not go into a record", error.to_string()).help(help)
        })
    }
}

fn bad_term(span: &Span, expected: String) -> Diagnostic {
    Diagnostic::new(2, span.clone(), "no record holds this term", expected)
}

fn string(text: &str, tag: &str, span: &Span) -> Parsed<Term> {
    let tag = tag.to_ascii_lowercase();
    Term::tagged(&tag, text).map_err(|error| {
        let expected = match error {
            BadTerm::Tag if tag.len() > TAG_WIDTH => {
                format!("the tag has {} bytes, {} more than {TAG_WIDTH}", tag.len(), tag.len() - TAG_WIDTH)
            }
            BadTerm::Text if text.len() > TEXT_WIDTH => {
                format!("the text has {} bytes, {} more than {TEXT_WIDTH}", text.len(), text.len() - TEXT_WIDTH)
            }
            error => match text.chars().find(|c| !matches!(c, ' '..='~')) {
                Some(c) if error == BadTerm::Text => format!("the character {c:?} is not between the blank and `~`"),
                _ => error.to_string(),
            },
        };
        bad_term(span, expected)
    })
}
