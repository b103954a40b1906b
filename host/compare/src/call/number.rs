//! The text of a number, and a reading of it.

use super::Engine;
use second::term::Term;
use std::fmt;

/// A text, and the length of the record that is lent with it.
#[derive(Clone, PartialEq, Eq, Debug)]
pub struct Text {
    /// The text.
    pub bytes: Vec<u8>,
    /// The length of the record.
    pub record: usize,
    /// What it was written for, a number or a refusal; none where chance alone wrote it.
    pub due: Option<Result<Term, u32>>,
}

/// What a reading gave.
#[derive(Clone, PartialEq, Eq, Debug)]
pub struct Read {
    /// 0 or the refusal.
    pub code: u32,
    /// The record's bytes; `aa` where nothing was written.
    pub record: Vec<u8>,
}

impl Text {
    /// Has it read by this engine.
    pub fn read(&self, engine: &dyn Engine) -> Read {
        let mut record = self.blank();
        let code = engine.number(&self.bytes, &mut record);
        Read { code, record }
    }

    /// The record before it is read.
    pub fn blank(&self) -> Vec<u8> {
        vec![0xaa; self.record]
    }
}

impl Read {
    /// The number that was read, if the record is one's.
    pub fn term(&self) -> Option<Term> {
        let (term, rest) = Term::read(&self.record).filter(|_| self.code == 0)?;
        (rest.is_empty() && matches!(term, Term::Int(_) | Term::Dec(_))).then_some(term)
    }
}

impl fmt::Display for Read {
    fn fmt(&self, f: &mut fmt::Formatter<'_>) -> fmt::Result {
        write!(f, "{}, record {:02x?}", self.code, self.record)
    }
}
