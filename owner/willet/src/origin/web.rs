//! Pages from the web.

use super::Fetched;
use crate::args::SourceArgs;
use crate::failure::Failure;
use native_tls::TlsConnector;
use rdf::Format;
use std::error::Error as _;
use std::io::Read;
use std::path::Path;
use std::sync::Arc;
use std::time::Duration;
use ureq::{Agent, AgentBuilder, Error, Response};

/// Redirects that are followed.
const REDIRECTS: u32 = 5;
/// The status of a text that is as it was.
const NOT_MODIFIED: u16 = 304;
/// Media types that say nothing: the extension tells more.
const NO_TYPES: [&str; 2] = ["text/plain", "application/octet-stream"];
/// The wait before the first new try; it doubles with each.
const FIRST_WAIT: Duration = Duration::from_millis(100);

/// A client that fetches pages.
pub struct Web {
    agent: Agent,
    map: Vec<(String, String)>,
    timeout: Duration,
    max_bytes: u64,
    retries: u32,
}

/// A failed try, and whether another one may do.
struct Failed {
    failure: Failure,
    again: bool,
}

impl Web {
    pub fn new(args: &SourceArgs) -> Result<Web, Failure> {
        let tls = TlsConnector::new().map_err(|error| Failure::at("TLS", error))?;
        let agent = AgentBuilder::new()
            .tls_connector(Arc::new(tls))
            .redirects(REDIRECTS)
            .timeout(args.timeout)
            .user_agent(concat!("willet/", env!("CARGO_PKG_VERSION")))
            .build();
        let (map, timeout) = (args.map.clone(), args.timeout);
        Ok(Web { agent, map, timeout, max_bytes: args.max_bytes, retries: args.retries })
    }

    /// Fetches a text, or none if the server says that it is the one with this tag.
    pub fn fetch(&self, iri: &str, tag: Option<&str>) -> Result<Option<Fetched>, Failure> {
        let mut wait = FIRST_WAIT;
        for left in (0..=self.retries).rev() {
            match self.once(iri, tag) {
                Ok(fetched) => return Ok(fetched),
                Err(Failed { failure, again }) if !again || left == 0 => return Err(failure),
                Err(_) => std::thread::sleep(wait),
            }
            wait *= 2;
        }
        Err(Failure::at(iri, "it was never tried"))
    }

    /// Where an IRI is asked for.
    fn url(&self, iri: &str) -> String {
        let iri = iri.split('#').next().unwrap_or(iri);
        let row =
            self.map.iter().find_map(|(from, to)| iri.strip_prefix(from.as_str()).map(|rest| [to, rest].concat()));
        row.unwrap_or_else(|| iri.to_owned())
    }

    /// The IRI of a place that answered.
    fn iri(&self, url: &str) -> String {
        let row =
            self.map.iter().find_map(|(from, to)| url.strip_prefix(to.as_str()).map(|rest| [from, rest].concat()));
        row.unwrap_or_else(|| url.to_owned())
    }

    fn once(&self, iri: &str, tag: Option<&str>) -> Result<Option<Fetched>, Failed> {
        let mut request = self.agent.get(&self.url(iri)).set("Accept", Format::ACCEPT);
        if let Some(tag) = tag {
            request = request.set("If-None-Match", tag);
        }
        let response = request.call().map_err(|error| self.failed(iri, error))?;
        if response.status() == NOT_MODIFIED {
            return Ok(None);
        }
        self.body(iri, response).map(Some)
    }

    fn failed(&self, iri: &str, error: Error) -> Failed {
        match error {
            Error::Status(status, response) => {
                let failure = Failure::at(iri, format!("the server answers {status} {}", response.status_text()));
                Failed { failure, again: status == 429 || status >= 500 }
            }
            Error::Transport(error) if error.to_string().contains("timed out") => self.too_slow(iri),
            Error::Transport(error) => {
                let message = error.message().map_or_else(|| error.kind().to_string(), str::to_owned);
                let cause = error.source().map(|cause| format!(": {cause}")).unwrap_or_default();
                let failure = Failure::at(iri, format!("no answer: {message}{cause}"));
                Failed { failure, again: true }
            }
        }
    }

    fn too_slow(&self, iri: &str) -> Failed {
        let failure = Failure::at(iri, format!("no answer within {} seconds", self.timeout.as_secs_f64()));
        Failed { failure: failure.help("--timeout gives it more time"), again: true }
    }

    fn body(&self, iri: &str, response: Response) -> Result<Fetched, Failed> {
        let url = response.get_url().to_owned();
        let tag = response.header("ETag").map(str::to_owned);
        let media_type = response.content_type().to_owned();
        let path = url.split(['?', '#']).next().unwrap_or(&url);
        let (by_type, by_path) = (Format::of_media_type(&media_type), Format::of_path(Path::new(path)));
        let format = if NO_TYPES.contains(&media_type.as_str()) { by_path.or(by_type) } else { by_type.or(by_path) };
        let Some(format) = format else {
            let failure = Failure::at(iri, format!("the server sends {media_type}, which is no Linked Data"));
            return Err(Failed { failure, again: false });
        };
        let mut bytes = Vec::new();
        let read = response.into_reader().take(self.max_bytes + 1).read_to_end(&mut bytes);
        if read.is_err() {
            return Err(self.too_slow(iri));
        }
        if bytes.len() as u64 > self.max_bytes {
            let failure = Failure::at(iri, format!("the page has more than {} bytes", self.max_bytes));
            return Err(Failed { failure: failure.help("--max-bytes takes a longer one"), again: false });
        }
        Ok(Fetched { bytes, format, base: self.iri(&url), tag })
    }
}
