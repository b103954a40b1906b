//! Texts: short ones, ones of any length, and in some cases most of them at an edge of their field ([`EDGES`]), alike but for their ends.

use super::rng::Rng;
use second::edge::EDGES;
use second::limits::TEXT;
use second::term::{trim, Term};

/// How long the texts of a case are.
#[derive(Clone, Copy, Debug)]
pub struct Texts {
    /// Where most of them end, in a case of long texts.
    edge: Option<usize>,
}

/// The last bytes of long texts: few, so that some are the same and others differ in nothing else.
const LAST: &[u8] = b"aAbB~";

impl Texts {
    /// Long ones in one case of three.
    pub fn new(rng: &mut Rng) -> Texts {
        Texts { edge: rng.one_in(3).then(|| EDGES[rng.weighted(&[2, 2, 2, 3])]) }
    }

    /// Whether most of them are long.
    pub fn are_long(&self) -> bool {
        self.edge.is_some()
    }

    /// A text that ends at an edge, now and then. Some have the number in them, so that there are enough of them.
    fn at_an_edge(&self, rng: &mut Rng, n: usize) -> Option<Vec<u8>> {
        let edge = match (self.edge, rng.below(20)) {
            (Some(edge), 0..=9) => edge,
            (Some(_), 10..=13) | (None, 0) => rng.one(&EDGES),
            _ => return None,
        };
        let mut text = vec![b'x'; edge];
        if n > 20 || rng.one_in(8) {
            let digits = n.to_string();
            text[edge - 1 - digits.len()..edge - 1].copy_from_slice(digits.as_bytes());
        }
        text[edge - 1] = rng.one(LAST);
        Some(text)
    }

    /// A URI's text; the number makes most of the short ones different.
    pub fn uri(&self, rng: &mut Rng, n: usize) -> Vec<u8> {
        self.at_an_edge(rng, n).unwrap_or_else(|| match rng.below(12) {
            0 => (0..rng.within(1, TEXT)).map(|_| rng.within(0x21, 0x7e) as u8).collect(),
            1 => format!("{n:u>0$}", rng.within(TEXT - 10, TEXT)).into_bytes(),
            _ => format!("u:{n}").into_bytes(),
        })
    }

    /// A property's text.
    pub fn property(&self, rng: &mut Rng, n: usize) -> Vec<u8> {
        self.at_an_edge(rng, n).unwrap_or_else(|| format!("p:{n}").into_bytes())
    }

    /// A string's text.
    pub fn string(&self, rng: &mut Rng, n: usize) -> Vec<u8> {
        self.at_an_edge(rng, n).unwrap_or_else(|| match rng.below(8) {
            0 => Vec::new(),
            1 => (0..rng.within(1, TEXT)).map(|_| rng.within(0x20, 0x7e) as u8).collect(),
            2 => format!("name {n}").into_bytes(),
            3 => rng.one(&["1970-01-01T00:00:00Z", "3", "-0.5", "3.0", "u:1"]).into(),
            _ => (0..rng.within(1, 4)).map(|_| rng.one(b"aAbB 0-~")).collect(),
        })
    }
}

/// A term whose text differs from this one's in its last byte alone; none of a term that has no text, or an empty one.
pub fn other_end(rng: &mut Rng, term: &Term) -> Option<Term> {
    let mut other = *term;
    let (Term::Uri(text) | Term::Str(_, text)) = &mut other else { return None };
    let last = trim(text).len().checked_sub(1)?;
    let ends: Vec<u8> = LAST.iter().copied().filter(|end| *end != text[last]).collect();
    text[last] = rng.one(&ends);
    Some(other)
}
