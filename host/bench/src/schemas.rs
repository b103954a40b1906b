//! Pages that a schema is gathered from, with as many records as a page holds.

use crate::texts::Texts;
use willetcoffer::limits::{ENTRY_LIMIT, PAGE_LIMIT};
use willetcoffer::page::{record_width, triple};
use willetcoffer::{BadTerm, Term};

/// A page and the number that a schema call gives for it.
pub struct Workload {
    /// Its name.
    pub name: &'static str,
    /// The page.
    pub page: Vec<u8>,
    /// 0 or 19.
    pub code: u32,
}

/// A page of as many records as fit: the subject's number of each, and whether it asks.
fn page(texts: Texts, record: fn(usize) -> (usize, bool)) -> Result<Vec<u8>, BadTerm> {
    let (range, integer) = (Term::uri("rdfs:range")?, Term::uri("xsd:integer")?);
    let (type_of, class) = (Term::uri("rdf:type")?, Term::uri("rdf:Property")?);
    let mut page = Vec::new();
    let width = record_width(0x81).unwrap_or(PAGE_LIMIT);
    for n in 0..PAGE_LIMIT / width {
        let (subject, asks) = record(n);
        let subject = Term::uri(&texts.of(&format!("p:{subject}")))?;
        let [property, object] = if asks { [&range, &integer] } else { [&type_of, &class] };
        page.extend(triple(&subject, property, object).unwrap_or_default());
    }
    Ok(page)
}

/// All subjects different, of which as many ask as get an entry, and of which all do; few subjects, all of whose records ask.
pub fn workloads() -> Result<Vec<Workload>, BadTerm> {
    let different = |n| (n, n < ENTRY_LIMIT);
    Ok(vec![
        Workload { name: "schema, all subjects different", page: page(Texts::Short, different)?, code: 0 },
        Workload { name: "schema, different, long texts", page: page(Texts::Long, different)?, code: 0 },
        Workload { name: "schema, all of them ask: 19", page: page(Texts::Short, |n| (n, true))?, code: 19 },
        Workload { name: "schema, four subjects", page: page(Texts::Short, |n| (n % 4, true))?, code: 0 },
        Workload { name: "schema, four subjects, long texts", page: page(Texts::Long, |n| (n % 4, true))?, code: 0 },
    ])
}
