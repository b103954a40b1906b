//! The roster, printed.

use crate::args::Style;
use crate::failure::Failure;
use crate::season::Answers;
use serde_json::{json, Map, Value as Json};
use std::fmt::Write;
use terms::{plain, Prefixes};
use willetcoffer::{Term, Value};

const XSD: &str = "http://www.w3.org/2001/XMLSchema#";

/// The tables of a roster in a style.
pub fn text(roster: &[Answers], style: Style, prefixes: &Prefixes) -> Result<String, Failure> {
    match style {
        Style::Table => Ok(roster.iter().map(table).collect::<Vec<_>>().join("\n")),
        Style::Csv => {
            Ok(roster.iter().map(|answers| csv(answers, prefixes)).collect::<Result<Vec<_>, _>>()?.join("\n"))
        }
        Style::Json => {
            let tables: Vec<Json> = roster.iter().map(|answers| sparql_json(answers, prefixes)).collect();
            serde_json::to_string_pretty(&tables)
                .map(|text| text + "\n")
                .map_err(|error| Failure::new(error.to_string()))
        }
    }
}

/// The cells of a table: a head, then the rows.
pub fn cells(answers: &Answers) -> (Vec<String>, Vec<Vec<String>>) {
    let head = answers.columns.iter().map(|column| format!("${column}")).collect();
    let rows = answers.rows.iter().map(|row| row.iter().map(plain).collect());
    (head, rows.collect())
}

/// How wide each column of a table is.
pub fn widths(head: &[String], rows: &[Vec<String>]) -> Vec<usize> {
    let column = |place: usize| rows.iter().filter_map(move |row| row.get(place)).map(String::len);
    let width = |(place, name): (usize, &String)| column(place).max().unwrap_or(0).max(name.len());
    head.iter().enumerate().map(width).collect()
}

fn table(answers: &Answers) -> String {
    let (head, rows) = cells(answers);
    let widths = widths(&head, &rows);
    let rule: Vec<String> = widths.iter().map(|width| "-".repeat(*width)).collect();
    let mut text = String::new();
    for row in [&head, &rule].into_iter().chain(&rows) {
        let padded: Vec<String> = row.iter().zip(&widths).map(|(cell, width)| format!("{cell:width$}")).collect();
        let _ = writeln!(text, "{}", padded.join("  ").trim_end());
    }
    let count = answers.rows.len();
    let _ = writeln!(text, "({count} {})", if count == 1 { "answer" } else { "answers" });
    text
}

/// A term's text, an IRI in full.
fn full(term: &Term, prefixes: &Prefixes) -> String {
    match term.value() {
        Value::Uri(text) => prefixes.full(text),
        _ => plain(term),
    }
}

/// As the W3C's CSV results have it.
fn csv(answers: &Answers, prefixes: &Prefixes) -> Result<String, Failure> {
    let mut writer = csv::Writer::from_writer(Vec::new());
    let bad = |error: csv::Error| Failure::new(error.to_string());
    writer.write_record(&answers.columns).map_err(bad)?;
    for row in &answers.rows {
        writer.write_record(row.iter().map(|term| full(term, prefixes))).map_err(bad)?;
    }
    let bytes = writer.into_inner().map_err(|error| Failure::new(error.to_string()))?;
    Ok(String::from_utf8_lossy(&bytes).into_owned())
}

/// As the W3C's JSON results have it.
fn sparql_json(answers: &Answers, prefixes: &Prefixes) -> Json {
    let binding = |row: &Vec<Term>| {
        let pairs = answers.columns.iter().zip(row).map(|(column, term)| (column.clone(), json_term(term, prefixes)));
        Json::Object(pairs.collect::<Map<String, Json>>())
    };
    let bindings: Vec<Json> = answers.rows.iter().map(binding).collect();
    json!({ "head": { "vars": answers.columns }, "results": { "bindings": bindings } })
}

fn json_term(term: &Term, prefixes: &Prefixes) -> Json {
    let value = full(term, prefixes);
    let typed = |name: &str| json!({ "type": "literal", "value": value, "datatype": format!("{XSD}{name}") });
    match term.value() {
        Value::Uri(text) if text.starts_with("_:") => json!({ "type": "bnode", "value": value }),
        Value::Uri(_) => json!({ "type": "uri", "value": value }),
        Value::String { tag: "", .. } => json!({ "type": "literal", "value": value }),
        Value::String { tag, .. } => json!({ "type": "literal", "value": value, "xml:lang": tag }),
        Value::Integer(_) => typed("integer"),
        Value::Decimal(_) => typed("decimal"),
        Value::DateTime(_) => typed("dateTime"),
    }
}
