//! The commands that look at one file.

use crate::args::{DataArgs, PageArgs, ScriptArgs};
use crate::failure::Failure;
use crate::files::{legend_path, read, read_legend, write, CardFile, ScriptFile};
use rdf::{Format, Page};
use std::path::Path;
use std::process::ExitCode;
use terms::Prefixes;
use text::Legend;
use willetcoffer::limits::PAGE_LIMIT;
use willetcoffer::Refusal;

type Done = Result<ExitCode, Failure>;

/// The types of a script's variables.
pub fn check(file: &Path) -> Done {
    let script = ScriptFile::read(file)?;
    let types = text::check(&script.source).map_err(|error| script.failure(error))?;
    println!("{}: accepted", file.display());
    let width = types.iter().map(|(name, _)| name.len()).max().unwrap_or(0) + 1;
    for (name, found) in types {
        println!("  {:width$}  {found}", format!("${name}"));
    }
    Ok(ExitCode::SUCCESS)
}

/// A script's card, with its legend beside it.
pub fn card(file: &Path, output: &Path) -> Done {
    let encoded = ScriptFile::read(file)?.accepted()?;
    write(output, encoded.card.joined())?;
    write(&legend_path(output), encoded.legend.to_text())?;
    Ok(ExitCode::SUCCESS)
}

/// A card as text.
pub fn show(args: &ScriptArgs) -> Done {
    print!("{}", text::print(&CardFile::read(args)?.source));
    Ok(ExitCode::SUCCESS)
}

/// A page from a file of Linked Data.
pub fn page(args: &PageArgs) -> Done {
    let legend = args.data.legend.as_deref().map_or(Ok(Legend::default()), read_legend)?;
    let page = read_page(&args.data, &legend.prefixes)?;
    println!("{}: {} records, {} left out", args.data.file.display(), page.taken.len(), page.left_out.len());
    within_limit(&args.data.file, &page)?;
    write(&args.output, page.bytes)?;
    Ok(ExitCode::SUCCESS)
}

/// The page of a file of Linked Data under these prefixes. What the reader warned of, and what is no record, is told on standard error.
pub fn read_page(args: &DataArgs, prefixes: &Prefixes) -> Result<Page, Failure> {
    let path = &args.file;
    let format = match &args.format {
        Some(name) => Format::from_name(name),
        None => Format::of_path(path),
    };
    let format = format.ok_or_else(|| {
        let help = format!("name one by --format: {}", Format::names().collect::<Vec<_>>().join(", "));
        Failure::file(path, "its extension tells no format").help(help)
    })?;
    let bytes = read(path)?;
    let graph = args.graph.clone().map_or_else(|| file_iri(path), Ok)?;
    let document = rdf::read(&bytes, format, &graph).map_err(|error| Failure::file(path, error))?;
    let page = rdf::page(&document, &graph, prefixes);
    for warning in &page.warnings {
        eprintln!("warning: {}: {warning}", path.display());
    }
    for left in &page.left_out {
        eprintln!("left out: {left}");
    }
    Ok(page)
}

/// A failure where a page has more bytes than the engine takes.
pub fn within_limit(path: &Path, page: &Page) -> Result<(), Failure> {
    if page.bytes.len() > PAGE_LIMIT {
        return Err(over_limit(path.display(), page.bytes.len()));
    }
    Ok(())
}

/// A page with more bytes than the engine takes.
pub fn over_limit(what: impl std::fmt::Display, bytes: usize) -> Failure {
    let what = format!("{what}: {bytes} bytes of records, {} more than {PAGE_LIMIT}", bytes - PAGE_LIMIT);
    Failure::refused(what, Refusal::Page).help("publish the stock on several pages, each a graph of its own")
}

fn file_iri(path: &Path) -> Result<String, Failure> {
    let path = path.canonicalize().map_err(|error| Failure::file(path, error))?;
    Ok(format!("file://{}", path.display()))
}
