//! Where pages come from.

mod directory;
mod web;

use crate::args::SourceArgs;
use crate::failure::Failure;
use directory::Directory;
use rdf::{Format, Page};
use std::collections::HashMap;
use terms::Prefixes;
use web::Web;

/// A text that was fetched.
pub struct Fetched {
    /// The text.
    pub bytes: Vec<u8>,
    /// Its form.
    pub format: Format,
    /// The IRI below which its relative IRIs stand.
    pub base: String,
    /// The server's tag for it, by which it may be asked whether it is as it was.
    pub tag: Option<String>,
}

enum Origin {
    Nowhere,
    Directory(Directory),
    Web(Box<Web>),
}

/// A page as it was last read.
struct Last {
    bytes: Vec<u8>,
    tag: Option<String>,
}

/// The pages of a run: fetched, turned into records, and compared with what they were.
pub struct Pages {
    origin: Origin,
    prefixes: Prefixes,
    last: HashMap<String, Last>,
}

impl Pages {
    /// Pages from where the command line says, shortened by these prefixes.
    pub fn new(args: &SourceArgs, prefixes: Prefixes) -> Result<Pages, Failure> {
        let origin = match &args.from {
            Some(path) => Origin::Directory(Directory::new(path)),
            None if args.fetch => Origin::Web(Box::new(Web::new(args)?)),
            None => Origin::Nowhere,
        };
        Ok(Pages { origin, prefixes, last: HashMap::new() })
    }

    /// The page of a graph. A blank node has an empty one.
    pub fn page(&mut self, iri: &str) -> Result<Page, Failure> {
        if iri.starts_with("_:") {
            return Ok(Page::default());
        }
        let fetched =
            self.fetch(iri, None)?.ok_or_else(|| Failure::at(iri, "the server says that nothing has changed"))?;
        self.read(iri, fetched)
    }

    /// The page of a graph, if it is no longer what it was.
    pub fn rewritten(&mut self, iri: &str) -> Result<Option<Page>, Failure> {
        let Some(Last { bytes, tag }) = self.last.get(iri) else { return Ok(None) };
        let (before, tag) = (bytes.clone(), tag.clone());
        let Some(fetched) = self.fetch(iri, tag.as_deref())? else { return Ok(None) };
        let page = self.read(iri, fetched)?;
        Ok((page.bytes != before).then_some(page))
    }

    /// A text, or none if the server says that it is the one with this tag.
    fn fetch(&self, iri: &str, tag: Option<&str>) -> Result<Option<Fetched>, Failure> {
        match &self.origin {
            Origin::Directory(directory) => directory.fetch(iri).map(Some),
            Origin::Web(web) => web.fetch(iri, tag),
            Origin::Nowhere => {
                let help = "say where pages come from: --from DIR, or --fetch";
                Err(Failure::at(iri, "this page is wanted, and there are no pages").help(help))
            }
        }
    }

    fn read(&mut self, iri: &str, fetched: Fetched) -> Result<Page, Failure> {
        let Fetched { bytes, format, base, tag } = fetched;
        let document = rdf::read(&bytes, format, &base);
        let document = document.map_err(|error| Failure::at(iri, format!("no {}: {error}", format.name())))?;
        let page = rdf::page(&document, iri, &self.prefixes);
        self.last.insert(iri.to_owned(), Last { bytes: page.bytes.clone(), tag });
        Ok(page)
    }
}
