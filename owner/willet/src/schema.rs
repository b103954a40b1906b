//! `willet schema`: what a page tells of the ranges of properties, as the schema of a script.

use crate::args::SchemaArgs;
use crate::commands::{read_page, within_limit};
use crate::failure::Failure;
use crate::files::{read_legend, write};
use std::collections::HashSet;
use std::process::ExitCode;
use terms::{BadPrefix, Prefixes};
use text::{print_schema, Legend};
use willetcoffer::{schema_of_page, Datatype, Refusal, Term, Value};

/// The names under which the engine looks for the words of these vocabularies.
const VOCABULARIES: [(&str, &str); 4] = [
    ("rdf", "http://www.w3.org/1999/02/22-rdf-syntax-ns#"),
    ("rdfs", "http://www.w3.org/2000/01/rdf-schema#"),
    ("owl", "http://www.w3.org/2002/07/owl#"),
    ("xsd", "http://www.w3.org/2001/XMLSchema#"),
];

/// The words themselves, the datatypes' names left out.
const WORDS: [&str; 3] = ["rdfs:range", "rdf:type", "owl:ObjectProperty"];

/// A schema gathered from a file of Linked Data, as text.
pub fn schema(args: &SchemaArgs) -> Result<ExitCode, Failure> {
    let path = &args.data.file;
    let legend = args.data.legend.as_deref().map_or(Ok(Legend::default()), read_legend)?;
    let prefixes = with_vocabularies(&legend.prefixes)?;
    let page = read_page(&args.data, &prefixes)?;
    within_limit(path, &page)?;
    let gathered = schema_of_page(&page.bytes).map_err(|refusal| {
        let failure = Failure::refused(path.display(), refusal);
        match refusal {
            Refusal::TooManyEntries => failure.help("publish the ranges on several pages"),
            _ => failure,
        }
    })?;
    let entries: Vec<(Term, Datatype)> = gathered.entries().collect();
    for (subject, asked) in asked_in_vain(&page.taken, &entries) {
        eprintln!("left out: {subject}\n    no datatype meets all of {}", asked.join(", "));
    }
    eprintln!("{}: {} entries, {} left out", path.display(), entries.len(), gathered.left_out);
    let text = print_schema(&entries, &used(&prefixes, &legend.prefixes, &entries));
    match &args.output {
        Some(output) => write(output, text)?,
        None => print!("{text}"),
    }
    Ok(ExitCode::SUCCESS)
}

/// The legend's prefixes, and those by which the engine knows the words that ask.
fn with_vocabularies(legend: &Prefixes) -> Result<Prefixes, Failure> {
    let mut prefixes = legend.clone();
    for (name, iri) in VOCABULARIES {
        prefixes.add(name, iri).map_err(|bad| {
            let other = legend.iter().find(|(_, other)| *other == iri).map_or("", |(other, _)| other);
            match bad {
                BadPrefix::Twice => Failure::new(format!("{name}: stands for another IRI than <{iri}>"))
                    .help(format!("the engine looks for {name}: on the page: give the legend's prefix another name")),
                BadPrefix::Same => {
                    Failure::new(format!("{other}: stands for <{iri}>, which the engine knows as {name}:"))
                        .help(format!("name the legend's prefix {name}:"))
                }
            }
        })?;
    }
    let datatypes = Datatype::ALL.map(|datatype| datatype.to_string());
    for word in WORDS.into_iter().chain(datatypes.iter().map(String::as_str)) {
        let iri = prefixes.full(word);
        let text = prefixes.shortened(&iri).unwrap_or_default();
        if text != word {
            let help = format!("the engine looks for {word}: leave that prefix out");
            return Err(Failure::new(format!("the legend's prefixes make {text} of <{iri}>")).help(help));
        }
    }
    Ok(prefixes)
}

/// The legend's prefixes, and of the others those that a property needs.
fn used(all: &Prefixes, legend: &Prefixes, entries: &[(Term, Datatype)]) -> Prefixes {
    let texts: Vec<String> = entries.iter().map(|(property, _)| property.to_string()).collect();
    let names: HashSet<&str> = texts.iter().filter_map(|text| all.split(text)).map(|(name, _)| name).collect();
    let mut prefixes = Prefixes::default();
    for (name, iri) in all.iter().filter(|(name, _)| legend.iri(name).is_some() || names.contains(name)) {
        // They stand in one table already, so each can be added.
        let _ = prefixes.add(name, iri);
    }
    prefixes
}

/// The subjects of which something is asked and that have no entry, each with what is asked, in the order of their first asking records.
fn asked_in_vain(triples: &[[Term; 3]], entries: &[(Term, Datatype)]) -> Vec<(String, Vec<String>)> {
    let mut found: Vec<(String, Vec<String>)> = Vec::new();
    for [subject, property, object] in triples {
        let Value::Uri(object) = object.value() else { continue };
        let property = property.to_string();
        let asks = property == WORDS[0] || (property == WORDS[1] && object == WORDS[2]);
        if !asks || entries.iter().any(|(other, _)| other == subject) {
            continue;
        }
        let (subject, asked) = (subject.to_string(), format!("{property} {object}"));
        match found.iter_mut().find(|(other, _)| *other == subject) {
            Some((_, all)) if all.contains(&asked) => {}
            Some((_, all)) => all.push(asked),
            None => found.push((subject, vec![asked])),
        }
    }
    found
}
