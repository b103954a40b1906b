//! What a card has room for.

use crate::diagnostic::Diagnostic;
use crate::tree::{Boolean, Node, Query, Script, Source, Span};
use crate::walk::script_records;
use willetcoffer::limits::{DEPTH_LIMIT, ENTRY_LIMIT, LANGUAGE_RANGE_WIDTH, PATTERN_WIDTH, SCRIPT_LIMIT, TERM_LIMIT};
use willetcoffer::script::{con, filter, lang_matches, once, regex, success, Boolean as Part};
use willetcoffer::{Card, Tables, Term};

/// Says which limit of a card the source passes, or which pattern or language range no card has.
pub fn check(source: &Source) -> Result<(), Diagnostic> {
    if let Some(entry) = source.schema.get(ENTRY_LIMIT) {
        let message = format!("a schema has at most {ENTRY_LIMIT} entries");
        return Err(Diagnostic::new(6, entry.property.span.clone(), message, "one too many"));
    }
    for (block, _) in source.script.blocks() {
        tests(&block.query)?;
    }
    size(&source.script)
}

/// Says at which term a card is full, if it is.
pub fn terms(count: usize, span: &Span) -> Result<(), Diagnostic> {
    if count <= TERM_LIMIT {
        return Ok(());
    }
    let message = format!("a card has at most {TERM_LIMIT} terms, the schema's properties among them");
    Err(Diagnostic::new(6, span.clone(), message, "one too many"))
}

fn size(script: &Node<Script>) -> Result<(), Diagnostic> {
    let mut bytes = 0;
    for record in script_records(script) {
        bytes += record.width;
        if record.depth > DEPTH_LIMIT {
            let message = format!("this lies {} records deep, and a card has room for {DEPTH_LIMIT}", record.depth);
            let help = "group long conditions and long lists of patterns by parentheses or braces, half and half";
            return Err(Diagnostic::new(6, record.span.clone(), message, "too deep").help(help));
        }
        if bytes > SCRIPT_LIMIT {
            let message = format!("the script has more than {SCRIPT_LIMIT} bytes as a card");
            return Err(Diagnostic::new(6, record.span.clone(), message, "no room from here on"));
        }
    }
    Ok(())
}

fn tests(query: &Node<Query>) -> Result<(), Diagnostic> {
    match &query.kind {
        Query::Pattern(_) | Query::Empty => Ok(()),
        Query::Both(a, b) | Query::Union(a, b) => tests(a).and_then(|()| tests(b)),
        Query::Filter(boolean) => test(boolean),
    }
}

fn test(boolean: &Node<Boolean>) -> Result<(), Diagnostic> {
    match &boolean.kind {
        Boolean::Regex(_, pattern) => pattern_fits(pattern),
        Boolean::LangMatches(_, range) => range_fits(range),
        Boolean::Not(a) => test(a),
        Boolean::Or(a, b) | Boolean::And(a, b) => test(a).and_then(|()| test(b)),
        Boolean::Constant(_) | Boolean::Equal(..) | Boolean::Less(..) => Ok(()),
    }
}

/// Whether a card with this one test, of a string, loads.
fn loads(test: Part) -> bool {
    let script = once(&[], filter(test), success());
    Term::string("").is_ok_and(|text| Card::new(&[text], &[], script).load(&mut Tables::new()).is_ok())
}

fn too_long(what: &Node<String>, width: usize) -> Option<String> {
    let length = what.kind.len();
    (length > width).then(|| format!("{length} bytes, {} more than {width}", length - width))
}

fn pattern_fits(pattern: &Node<String>) -> Result<(), Diagnostic> {
    if loads(regex(&pattern.kind, con(0))) {
        return Ok(());
    }
    let expected = too_long(pattern, PATTERN_WIDTH).unwrap_or_else(|| "not a pattern of this language".to_owned());
    let help = "a pattern has plain characters, `.` for any, `*` after one of these, `^` first and `$` last; none of \\ | ? + ( ) [ ] { }";
    Err(Diagnostic::new(6, pattern.span.clone(), "bad pattern", expected).help(help))
}

fn range_fits(range: &Node<String>) -> Result<(), Diagnostic> {
    if loads(lang_matches(&range.kind, con(0))) {
        return Ok(());
    }
    let expected = too_long(range, LANGUAGE_RANGE_WIDTH).unwrap_or_else(|| "not a language range".to_owned());
    let help = "a language range is `*`, or small letters and hyphens such as `en` and `en-gb`, with `-*` at the end if you like";
    Err(Diagnostic::new(6, range.span.clone(), "bad language range", expected).help(help))
}
