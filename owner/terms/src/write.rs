//! Terms written out.

use crate::prefixes::Prefixes;
use crate::time;
use willetcoffer::{Term, Value};

/// Characters of an IRI that are escaped between angular brackets.
const ESCAPED: &str = "<>\"{}|^`\\";

/// Whether a text can stand after a prefix name and its colon: letters, digits and `_-.:/~%`, no point at the end.
pub fn is_local(text: &str) -> bool {
    text.bytes().all(|b| b.is_ascii_alphanumeric() || b"_-.:/~%".contains(&b)) && !text.ends_with('.')
}

/// A URI's text as a script has it: `p:speed`, or the IRI between angular brackets.
pub fn iri(text: &str, prefixes: &Prefixes) -> String {
    if prefixes.split(text).is_some_and(|(_, local)| is_local(local)) {
        return text.to_owned();
    }
    let escape = |c: char| if ESCAPED.contains(c) { format!("\\u{:04X}", u32::from(c)) } else { c.to_string() };
    format!("<{}>", prefixes.full(text).chars().map(escape).collect::<String>())
}

/// A term as a script has it: `club:yard`, `"Mallard"@en`, `60`, `126.4`, `2026-03-01T12:00:00Z`.
pub fn literal(term: &Term, prefixes: &Prefixes) -> String {
    match term.value() {
        Value::Uri(text) => iri(text, prefixes),
        Value::String { tag, text } => {
            let quoted = text.replace('\\', "\\\\").replace('"', "\\\"");
            let at = if tag.is_empty() { "" } else { "@" };
            format!("\"{quoted}\"{at}{tag}")
        }
        _ => plain(term),
    }
}

/// A term by its text alone, as `str` gives it: a URI or a string without quotes and tag, a decimal with its point.
pub fn plain(term: &Term) -> String {
    let text = term.to_string();
    match term.value() {
        Value::Decimal(_) if !text.contains('.') => text + ".0",
        Value::DateTime(seconds) => time::written(seconds),
        _ => text,
    }
}

#[cfg(test)]
mod tests {
    use super::*;
    use crate::{date_time, number};

    #[test]
    fn each_kind() {
        let mut prefixes = Prefixes::default();
        prefixes.add("p", "http://p.example/").expect("a prefix");
        let rows = [
            (Term::uri("p:speed").ok(), "p:speed"),
            (Term::uri("p:a,b").ok(), "<http://p.example/a,b>"),
            (Term::uri("q:<x>").ok(), "<q:\\u003Cx\\u003E>"),
            (Term::tagged("en", "a \"b\" \\").ok(), "\"a \\\"b\\\" \\\\\"@en"),
            (number("-0.50").ok(), "-0.5"),
            (number("3.0").ok(), "3.0"),
            (number("-3").ok(), "-3"),
            (date_time("2026-03-01T13:00:00+01:00").ok(), "2026-03-01T12:00:00Z"),
        ];
        for (term, text) in rows {
            assert_eq!(term.map(|term| literal(&term, &prefixes)).as_deref(), Some(text));
        }
    }
}
