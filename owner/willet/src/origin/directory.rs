//! Pages from files.

use super::Fetched;
use crate::failure::Failure;
use rdf::Format;
use std::path::{Component, Path, PathBuf};

/// A directory with a file for each page: for `http://club.example/stock/yard` that is `club.example/stock/yard.ttl` or
/// `stock/yard.ttl`, or another extension of Linked Data.
pub struct Directory {
    path: PathBuf,
}

/// The host and path of an IRI, without its fragment and query.
fn host_and_path(iri: &str) -> &str {
    let rest = iri.split_once("://").map_or(iri, |(_, rest)| rest);
    rest.split(['#', '?']).next().unwrap_or(rest)
}

impl Directory {
    pub fn new(path: &Path) -> Directory {
        Directory { path: path.to_owned() }
    }

    /// The files that may hold a page, the first one first.
    fn candidates(&self, iri: &str) -> Vec<PathBuf> {
        let whole = host_and_path(iri);
        let without_host = whole.split_once('/').map_or(whole, |(_, path)| path);
        let below = [whole, without_host].map(Path::new);
        let safe = below.into_iter().filter(|path| path.components().all(|part| matches!(part, Component::Normal(_))));
        let with = |path: &Path, extension: &str| self.path.join(format!("{}.{extension}", path.display()));
        let each = |path: &Path| {
            let plain = Format::of_path(path).map(|_| self.path.join(path));
            plain.into_iter().chain(Format::extensions().map(|extension| with(path, extension))).collect::<Vec<_>>()
        };
        safe.flat_map(each).collect()
    }

    pub fn fetch(&self, iri: &str) -> Result<Fetched, Failure> {
        let candidates = self.candidates(iri);
        let found = candidates.iter().find(|path| path.is_file());
        let Some((path, format)) = found.and_then(|path| Some((path, Format::of_path(path)?))) else {
            let first = candidates.first().map(|path| path.display().to_string()).unwrap_or_default();
            let help =
                format!("put its page at {first}, with or without the host's name, or in another form of Linked Data");
            return Err(Failure::at(iri, "there is no file for this page").help(help));
        };
        let bytes = std::fs::read(path).map_err(|error| Failure::file(path, error))?;
        Ok(Fetched { bytes, format, base: iri.to_owned(), tag: None })
    }
}

#[cfg(test)]
mod tests {
    use super::*;

    #[test]
    fn no_file_outside_the_directory() {
        let directory = Directory::new(Path::new("pages"));
        let first = |iri| directory.candidates(iri).first().map(|path| path.display().to_string());
        assert_eq!(first("http://club.example/yard#it"), Some("pages/club.example/yard.ttl".to_owned()));
        assert_eq!(first("http://club.example/yard.nt"), Some("pages/club.example/yard.nt".to_owned()));
        assert_eq!(first("http://club.example/../../etc/x"), None);
        assert_eq!(first("file:///etc/passwd"), Some("pages/etc/passwd.ttl".to_owned()));
    }
}
