//! Records that ask something of their subject, and records that do not, many of which miss it by little.

use crate::draw::rng::Rng;
use second::limits::TEXT;
use second::term::{fill, Term, Uri};
use second::types::Datatype::{self, AnyUri};
use second::write::{string, tagged, triple, uri};
use willetcoffer::kinds;

/// A record on its way to a page.
pub struct Record {
    /// Its bytes.
    pub bytes: Vec<u8>,
    /// Its subject.
    pub subject: Uri,
    /// What it asks for at least.
    pub asks: Option<Datatype>,
}

/// The words that ask.
const RANGE: &str = "rdfs:range";
const TYPE: &str = "rdf:type";
const CLASS: &str = "owl:ObjectProperty";

/// How the subjects of a page look; the same number is always the same subject.
pub enum Subjects {
    /// `p:7`, and first the words that ask.
    Short,
    /// Texts of so many bytes that are alike but for their ends.
    End(usize),
    /// Texts of 96 bytes that are alike but for their beginnings.
    Beginning,
}

impl Subjects {
    /// Of some sort.
    pub fn new(rng: &mut Rng) -> Subjects {
        match rng.below(8) {
            0..=2 => Subjects::Short,
            3..=6 => Subjects::End(rng.one(&[40, 41, 95, 96])),
            _ => Subjects::Beginning,
        }
    }

    /// The subject of this number.
    pub fn get(&self, n: usize) -> Uri {
        let words = [RANGE, TYPE, CLASS, "xsd:decimal"];
        let text = match self {
            Subjects::Short if n < words.len() => words[n].to_string(),
            Subjects::Short => format!("p:{n}"),
            Subjects::End(width) => format!("{n:x>width$}"),
            Subjects::Beginning => format!("{n}{:x>width$}", "", width = TEXT - n.to_string().len()),
        };
        fill(text.as_bytes())
    }
}

fn record(subject: &Uri, property: &str, object: &Term, asks: Option<Datatype>) -> Record {
    Record { bytes: triple(subject, &fill(property.as_bytes()), object), subject: *subject, asks }
}

/// A text that is not this word, but begins or ends like it, or reads so to somebody who does not look at case.
fn miss(rng: &mut Rng, word: &str) -> String {
    let at = rng.below(word.len());
    let mut bytes = word.as_bytes().to_vec();
    match rng.below(6) {
        0 => {
            bytes.pop();
        }
        1 => bytes.push(rng.one(b"s!0~")),
        2 => bytes[at] = bytes[at] % 90 + 0x22,
        3 => {
            let at = bytes.iter().skip(at).position(u8::is_ascii_alphabetic).map_or(0, |from| at + from);
            bytes[at] ^= 0x20;
        }
        4 => bytes.resize(TEXT, rng.one(b"xX!")),
        _ => return if rng.one_in(2) { word.to_ascii_uppercase() } else { word.to_ascii_lowercase() + "X" },
    }
    String::from_utf8_lossy(&bytes).into_owned()
}

/// Another URI than a datatype's name.
fn another(rng: &mut Rng) -> String {
    let datatype = rng.one(&Datatype::ALL).name();
    match rng.below(6) {
        0..=3 => miss(rng, datatype),
        4 => rng.one(&[CLASS, RANGE, TYPE, "rdfs:Literal", "xsd:int", "xsd:double", "xsd:"]).to_string(),
        _ => format!("c:{}", rng.below(5)),
    }
}

/// A record that asks for at least this datatype.
pub fn asking(rng: &mut Rng, subject: &Uri, datatype: Datatype) -> Record {
    let (property, object) = match rng.below(4) {
        0..=1 if datatype == AnyUri => (RANGE, another(rng)),
        2 if datatype == AnyUri => (TYPE, CLASS.to_string()),
        _ => (RANGE, datatype.name().to_string()),
    };
    record(subject, property, &uri(&object), Some(datatype))
}

/// A record that asks nothing; where a kind of term is given, with an object of that kind or, for an integer, of its width.
pub fn noise(rng: &mut Rng, subject: &Uri, kind: Option<u8>) -> Record {
    let kind = kind.unwrap_or_else(|| rng.one(&[kinds::URI, kinds::URI, kinds::URI, kinds::STRING, kinds::INTEGER]));
    let datatype = rng.one(&Datatype::ALL).name();
    let (property, object) = match kind {
        kinds::URI => uri_that_asks_nothing(rng, datatype),
        kinds::STRING => {
            let (property, text) = rng.one(&[(RANGE, datatype), (RANGE, "c:X"), (TYPE, CLASS), ("p:name", "Mallard")]);
            (property.to_string(), if rng.one_in(2) { string(text) } else { tagged("en", text) })
        }
        _ => {
            let number = rng.below(100) as i64;
            let property = rng.one(&[RANGE, RANGE, TYPE, "p:speed"]).to_string();
            (property, rng.one(&[Term::Int(number), Term::Dec(number), Term::Time(number)]))
        }
    };
    record(subject, &property, &object, None)
}

/// A property and a URI as its object: rdf:type with another class, a property that misses, any other.
fn uri_that_asks_nothing(rng: &mut Rng, datatype: &str) -> (String, Term) {
    let (property, object) = match rng.below(10) {
        0..=3 => (TYPE.to_string(), miss(rng, CLASS)),
        4 => (TYPE.to_string(), rng.one(&["rdf:Property", datatype, RANGE, "owl:DatatypeProperty"]).to_string()),
        5..=6 => (miss(rng, RANGE), datatype.to_string()),
        7..=8 => (miss(rng, TYPE), CLASS.to_string()),
        _ => ("rdfs:domain".to_string(), rng.one(&[datatype, CLASS, "c:X"]).to_string()),
    };
    (property, uri(&object))
}
