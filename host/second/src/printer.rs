//! The type printer: terms, schema and script joined, to text.

use crate::check::{check, Typer};
use crate::limits::{ENTRY, PRINTER};
use crate::refusal::{demand, Refusal};
use crate::term::Term;

/// Takes records off the front while their kind fixes a length. A record cut off by the end belongs to this part.
fn split(input: &[u8], length: impl Fn(u8) -> Option<usize>) -> (&[u8], &[u8]) {
    let mut at = 0;
    while let Some(length) = input.get(at).and_then(|kind| length(*kind)) {
        at = (at + length).min(input.len());
    }
    input.split_at(at)
}

/// The parts of a joined input: terms end before the first kind outside 11 to 15, the schema before the first kind that
/// is not 21.
pub fn parts(input: &[u8]) -> [&[u8]; 3] {
    let (terms, rest) = split(input, |kind| Term::body_length(kind).map(|body| body + 1));
    let (schema, script) = split(rest, |kind| (kind == 0x21).then_some(ENTRY));
    [terms, schema, script]
}

/// What the type printer writes for this input, with types worked out in this way.
pub fn print_with(typer: Typer, input: &[u8]) -> String {
    match accepted(typer, input) {
        Ok(text) => text,
        Err(refusal) => format!("refused {}\n", refusal.number),
    }
}

/// What the type printer writes for this input.
pub fn print_types(input: &[u8]) -> String {
    print_with(crate::arcs::solve, input)
}

fn accepted(typer: Typer, input: &[u8]) -> Result<String, Refusal> {
    demand(input.len() <= PRINTER, 6, "printer input")?;
    let [terms, schema, script] = parts(input);
    let types = check(typer, terms, schema, script)?.types;
    let named: Vec<_> = types.iter().enumerate().filter_map(|(v, t)| t.map(|t| (v, t))).collect();
    let mut text = format!("accepted {}\n", named.len());
    for (variable, t) in named {
        text += &format!("{variable} {}\n", t.name());
    }
    Ok(text)
}
