//! `willet publish`.

use crate::args::PublishArgs;
use crate::failure::Failure;
use crate::files::write;
use crate::host::{state_in_words, Host};
use crate::season::Season;
use rdf::Format;
use std::path::Path;
use std::process::ExitCode;
use willetcoffer::page::records;
use willetcoffer::Refusal;

/// How a published page is written.
enum Form {
    /// The records as they are.
    Records,
    /// As text.
    Text(Format),
}

impl Form {
    fn of_path(path: &Path) -> Result<Form, Failure> {
        match Format::of_path(path) {
            Some(format @ (Format::Turtle | Format::NTriples)) => Ok(Form::Text(format)),
            None if path.extension().is_some_and(|extension| extension == "records") => Ok(Form::Records),
            _ => {
                let help = "a page is written as Turtle (.ttl), N-Triples (.nt) or records (.records)";
                Err(Failure::file(path, "its extension tells no form").help(help))
            }
        }
    }
}

/// Runs a card or a script, and writes a graph that it has fetched. A run that waits or is spent has fetched what it has.
pub fn publish(args: &PublishArgs) -> Result<ExitCode, Failure> {
    let form = Form::of_path(&args.output)?;
    let mut say = |line: &str| {
        if !args.quiet {
            eprintln!("{line}");
        }
    };
    let mut host = Host::load(&args.script, &args.source, args.now, args.steps)?;
    let state = host.advance(&mut say)?;
    say(&state_in_words(state, host.season.steps));
    let season = &host.season;
    let graph = graph(season, args.graph.as_deref())?;
    let page = season.publish(graph)?;
    let prefixes = &season.legend.prefixes;
    let (bytes, left_out) = match form {
        Form::Records => (page.clone(), Vec::new()),
        Form::Text(format) => {
            let published = rdf::published(&page, prefixes);
            let text = rdf::written(&published.triples, format, prefixes).unwrap_or_default();
            (text.into_bytes(), published.left_out)
        }
    };
    for left in &left_out {
        eprintln!("left out: {left}");
    }
    write(&args.output, bytes)?;
    let (output, count) = (args.output.display(), records(&page).count() - left_out.len());
    println!("{output}: {}, {count} records, {} left out", season.iri(graph), left_out.len());
    Ok(ExitCode::SUCCESS)
}

/// The graph that is asked for, or the only one that is fetched.
fn graph(season: &Season, asked: Option<&str>) -> Result<u16, Failure> {
    let fetched = season.fetched();
    let iris: Vec<String> = fetched.iter().map(|graph| season.iri(*graph)).collect();
    let all = || if iris.is_empty() { "nothing".to_owned() } else { iris.join(", ") };
    match (asked, &fetched[..]) {
        (None, [graph]) => Ok(*graph),
        (None, []) => Err(Failure::new("no graph is fetched, so there is nothing to publish")),
        (None, _) => Err(Failure::new("several graphs are fetched").help(format!("name one by --graph: {}", all()))),
        (Some(asked), _) => {
            let iri = season.legend.prefixes.full(asked);
            let place = iris.iter().position(|fetched| *fetched == iri);
            let not_fetched = || Failure::refused(&iri, Refusal::NotFetched).help(format!("fetched: {}", all()));
            place.map(|place| fetched[place]).ok_or_else(not_fetched)
        }
    }
}
