//! The forms of Linked Data that are read.

use std::path::Path;

/// A form of Linked Data.
#[derive(Clone, Copy, PartialEq, Eq, Debug)]
pub enum Format {
    /// Turtle.
    Turtle,
    /// N-Triples.
    NTriples,
    /// N-Quads: the triples of the page's own graph and those without a graph.
    NQuads,
    /// RDF/XML.
    RdfXml,
    /// RDFa in HTML.
    Rdfa,
}

/// A format, libraptor2's name for it, its file extensions and its media types.
type Row = (Format, &'static str, &'static [&'static str], &'static [&'static str]);

const TABLE: [Row; 5] = [
    (Format::Turtle, "turtle", &["ttl"], &["text/turtle", "application/x-turtle", "text/n3"]),
    (Format::NTriples, "ntriples", &["nt"], &["application/n-triples", "text/plain"]),
    (Format::NQuads, "nquads", &["nq"], &["application/n-quads"]),
    (Format::RdfXml, "rdfxml", &["rdf", "owl", "xml"], &["application/rdf+xml", "application/xml"]),
    (Format::Rdfa, "rdfa", &["html", "xhtml", "htm"], &["text/html", "application/xhtml+xml"]),
];

impl Format {
    /// What a client asks a server for, the most welcome first.
    pub const ACCEPT: &'static str = "text/turtle, application/n-triples;q=0.9, application/n-quads;q=0.9, \
        application/rdf+xml;q=0.8, application/xhtml+xml;q=0.5, text/html;q=0.5";

    fn row(self) -> &'static Row {
        TABLE.iter().find(|row| row.0 == self).unwrap_or(&TABLE[0])
    }

    /// libraptor2's name of it.
    pub fn name(self) -> &'static str {
        self.row().1
    }

    /// The file extensions of all formats, in the order in which files are looked for.
    pub fn extensions() -> impl Iterator<Item = &'static str> {
        TABLE.iter().flat_map(|row| row.2.iter().copied())
    }

    /// The names of all formats.
    pub fn names() -> impl Iterator<Item = &'static str> {
        TABLE.iter().map(|row| row.1)
    }

    /// The format of this name.
    pub fn from_name(name: &str) -> Option<Format> {
        TABLE.iter().find(|row| row.1 == name).map(|row| row.0)
    }

    /// The format that a file's name tells.
    pub fn of_path(path: &Path) -> Option<Format> {
        let extension = path.extension()?.to_str()?.to_ascii_lowercase();
        TABLE.iter().find(|row| row.2.contains(&extension.as_str())).map(|row| row.0)
    }

    /// The format that a server names by its media type.
    pub fn of_media_type(media_type: &str) -> Option<Format> {
        let media_type = media_type.trim().to_ascii_lowercase();
        TABLE.iter().find(|row| row.3.contains(&media_type.as_str())).map(|row| row.0)
    }

    /// The media type that a server gives it.
    pub fn media_type(self) -> &'static str {
        self.row().3[0]
    }
}
