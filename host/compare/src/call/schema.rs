//! A page that a schema is gathered from, and what came of it.

use super::Engine;
use std::fmt;
use willetcoffer::limits::{ENTRY_WIDTH, SCHEMA_REPORT_WIDTH};

/// A page, and what is lent to be written.
#[derive(Clone, PartialEq, Eq, Debug)]
pub struct SchemaPage {
    /// The page.
    pub page: Vec<u8>,
    /// The schema's bytes before the call.
    pub schema: Vec<u8>,
    /// The report's bytes before the call.
    pub report: Vec<u8>,
    /// What the page was written for, entries or a refusal; none where chance alone wrote it.
    pub due: Option<Result<Entries, u32>>,
}

/// A schema that was gathered.
#[derive(Clone, PartialEq, Eq, Debug, Default)]
pub struct Entries {
    /// The records.
    pub records: Vec<u8>,
    /// How many subjects are left out.
    pub left_out: u32,
}

/// What a call gave.
#[derive(Clone, PartialEq, Eq, Debug)]
pub struct Gathered {
    /// 0 or the refusal.
    pub code: u32,
    /// The schema's bytes after the call.
    pub schema: Vec<u8>,
    /// The report's bytes after the call.
    pub report: Vec<u8>,
}

impl SchemaPage {
    /// Has its schema gathered by this engine.
    pub fn gather(&self, engine: &dyn Engine) -> Gathered {
        let (mut schema, mut report) = (self.schema.clone(), self.report.clone());
        let code = engine.schema(&self.page, &mut schema, &mut report);
        Gathered { code, schema, report }
    }
}

impl Gathered {
    /// The entries that the report counts, if the call was not refused and there is room for them.
    pub fn entries(&self) -> Option<Entries> {
        let [a, b, c, d, left_out @ ..]: [u8; SCHEMA_REPORT_WIDTH] = self.report[..].try_into().ok()?;
        let width = (u32::from_le_bytes([a, b, c, d]) as usize).checked_mul(ENTRY_WIDTH)?;
        let records = self.schema.get(..width).filter(|_| self.code == 0)?.to_vec();
        Some(Entries { records, left_out: u32::from_le_bytes(left_out) })
    }
}

/// Entries in words: the properties with their codes.
pub fn in_words(records: &[u8]) -> String {
    let words = records.chunks(ENTRY_WIDTH).map(|record| {
        let (code, uri) = record.split_last().unwrap_or((&0, record));
        let text = uri.get(1..).unwrap_or_default().escape_ascii().to_string();
        format!("{} {code:02x}", text.trim_end_matches("\\x00"))
    });
    words.collect::<Vec<_>>().join(", ")
}

impl fmt::Display for Gathered {
    fn fmt(&self, f: &mut fmt::Formatter<'_>) -> fmt::Result {
        write!(f, "{}, report {:02x?}", self.code, self.report)?;
        match self.entries() {
            Some(Entries { records, .. }) => write!(f, ", entries {}", in_words(&records)),
            None => Ok(()),
        }
    }
}
