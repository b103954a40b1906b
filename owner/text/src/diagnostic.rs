//! What is wrong with a script, and where.

use crate::tree::Span;
use std::error::Error;
use std::fmt;

/// An error with its places in the text.
#[derive(Clone, PartialEq, Eq, Debug)]
pub struct Diagnostic {
    /// The number of the refusal that a load of such a card gives.
    pub refusal: u32,
    /// What is wrong.
    pub message: String,
    /// The places; the first is the one to look at.
    pub labels: Vec<Label>,
    /// What to do.
    pub help: Vec<String>,
}

/// A place in the text.
#[derive(Clone, PartialEq, Eq, Debug)]
pub struct Label {
    /// The words, from byte to byte.
    pub span: Span,
    /// What is said of them.
    pub text: String,
}

impl Diagnostic {
    /// An error at one place.
    pub fn new(refusal: u32, span: Span, message: impl Into<String>, expected: impl Into<String>) -> Diagnostic {
        let labels = vec![Label { span, text: expected.into() }];
        Diagnostic { refusal, message: message.into(), labels, help: Vec::new() }
    }

    /// Another place.
    pub fn and(mut self, span: Span, text: impl Into<String>) -> Diagnostic {
        self.labels.push(Label { span, text: text.into() });
        self
    }

    /// What to do.
    pub fn help(mut self, text: impl Into<String>) -> Diagnostic {
        self.help.push(text.into());
        self
    }
}

impl fmt::Display for Diagnostic {
    fn fmt(&self, f: &mut fmt::Formatter<'_>) -> fmt::Result {
        write!(f, "refused {}: {}", self.refusal, self.message)
    }
}

impl Error for Diagnostic {}
