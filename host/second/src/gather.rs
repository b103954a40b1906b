//! A schema out of a page: what the page's records ask of the datatype of each subject, and the least datatype that meets all of it.
//!
//! Only records whose object is a URI ask. `rdfs:range` with the name of a datatype asks for at least that one, with another URI for
//! anyURI; `rdf:type` with `owl:ObjectProperty` asks for anyURI. Texts are compared whole, so that `xsd:Decimal` is another URI.

use crate::hash::Map;
use crate::limits::ENTRIES;
use crate::page::Triple;
use crate::refusal::{demand, Refusal};
use crate::term::{fill, trim, Term, Uri};
use crate::types::Datatype;

/// What a page's records ask for.
#[derive(Clone, PartialEq, Eq, Debug, Default)]
pub struct Gathered {
    /// The subjects of which something is asked that a datatype meets, in the order of their first asking records, with the least one.
    pub entries: Vec<(Uri, Datatype)>,
    /// How many subjects there are of which more is asked than one datatype meets.
    pub left_out: usize,
}

/// A way to gather a schema.
pub type Gathering = fn(&[Triple]) -> Gathered;

impl Gathered {
    /// Refusal 19 for more entries than a schema has.
    pub fn within_limit(self) -> Result<Gathered, Refusal> {
        demand(self.entries.len() <= ENTRIES, 19, "more entries than a schema has")?;
        Ok(self)
    }
}

/// The datatype that a record asks for at least, if it asks.
pub fn asked(triple: &Triple) -> Option<Datatype> {
    let Term::Uri(object) = &triple.object else { return None };
    match (trim(&triple.property), trim(object)) {
        (b"rdfs:range", name) => {
            let named = Datatype::ALL.into_iter().find(|datatype| datatype.name().as_bytes() == name);
            Some(named.unwrap_or(Datatype::AnyUri))
        }
        (b"rdf:type", b"owl:ObjectProperty") => Some(Datatype::AnyUri),
        _ => None,
    }
}

/// The least datatype above all of these: one that is, and is below every other that is.
fn least_above(asked: &[Datatype]) -> Option<Datatype> {
    let above: Vec<Datatype> =
        Datatype::ALL.into_iter().filter(|datatype| asked.iter().all(|asked| asked.le(*datatype))).collect();
    above.iter().copied().find(|least| above.iter().all(|datatype| least.le(*datatype)))
}

/// As it is defined: of each subject all asking records are looked for, the first of them being its place.
pub fn plain(triples: &[Triple]) -> Gathered {
    let asking: Vec<(&Uri, Datatype)> = triples.iter().filter_map(|t| Some((&t.subject, asked(t)?))).collect();
    let mut gathered = Gathered::default();
    for (place, (subject, _)) in asking.iter().enumerate() {
        if asking[..place].iter().any(|(other, _)| other == subject) {
            continue;
        }
        let of_subject: Vec<Datatype> =
            asking.iter().filter(|(other, _)| other == subject).map(|(_, datatype)| *datatype).collect();
        match least_above(&of_subject) {
            Some(datatype) => gathered.entries.push((**subject, datatype)),
            None => gathered.left_out += 1,
        }
    }
    gathered
}

/// Two demands as one; none where no datatype meets both.
fn joined(a: Datatype, b: Datatype) -> Option<Datatype> {
    if a.le(b) {
        Some(b)
    } else {
        b.le(a).then_some(a)
    }
}

/// The texts that ask, as they stand in a record.
struct Words {
    range: Uri,
    type_of: Uri,
    object_property: Uri,
    datatypes: [(Uri, Datatype); 5],
}

impl Words {
    fn new() -> Words {
        let datatypes = Datatype::ALL.map(|datatype| (fill(datatype.name().as_bytes()), datatype));
        let [range, type_of, object_property] =
            ["rdfs:range", "rdf:type", "owl:ObjectProperty"].map(|text| fill(text.as_bytes()));
        Words { range, type_of, object_property, datatypes }
    }

    fn asked(&self, property: &Uri, object: &Term) -> Option<Datatype> {
        let Term::Uri(object) = object else { return None };
        if *property == self.range {
            let named = self.datatypes.iter().find(|(name, _)| name == object);
            Some(named.map_or(Datatype::AnyUri, |(_, datatype)| *datatype))
        } else {
            (*property == self.type_of && *object == self.object_property).then_some(Datatype::AnyUri)
        }
    }
}

/// In one pass: each subject by a map, with what is asked of it so far as one demand, or none any more.
pub fn fast(triples: &[Triple]) -> Gathered {
    let words = Words::new();
    let mut places: Map<&Uri, usize> = Map::default();
    let mut subjects: Vec<(&Uri, Option<Datatype>)> = Vec::new();
    for Triple { subject, property, object } in triples {
        let Some(datatype) = words.asked(property, object) else { continue };
        let place = *places.entry(subject).or_insert(subjects.len());
        match subjects.get_mut(place) {
            Some((_, least)) => *least = least.and_then(|least| joined(least, datatype)),
            None => subjects.push((subject, Some(datatype))),
        }
    }
    let entries: Vec<(Uri, Datatype)> =
        subjects.iter().filter_map(|(subject, least)| Some((**subject, (*least)?))).collect();
    Gathered { left_out: subjects.len() - entries.len(), entries }
}
