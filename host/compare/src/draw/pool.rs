//! The words of a case: its terms and its schema, drawn so that joins, comparisons and patterns meet.

use crate::draw::rng::Rng;
use crate::draw::texts::{other_end, Texts};
use second::term::{fill, Term, Uri};
use second::types::{Datatype, Type};
use second::write::{entry, terms};
use willetcoffer::limits::{DECIMAL_LIMIT, INTEGER_LIMIT, SECONDS_AFTER, SECONDS_BEFORE};
use willetcoffer::term::MILLION;

/// How large a case is.
#[derive(Clone, Copy, PartialEq, Eq, Debug)]
pub enum Size {
    /// Few terms: everything can be tried by definition.
    Small,
    /// Some dozens.
    Middle,
    /// At the limits.
    Full,
}

/// The words.
#[derive(Clone, Debug)]
pub struct Pool {
    /// How many there are.
    pub size: Size,
    /// How long their texts are.
    pub texts: Texts,
    /// The listed terms.
    pub listed: Vec<Term>,
    /// The schema entries.
    pub schema: Vec<(Uri, Datatype)>,
    /// Listed terms and added schema URIs, as loading numbers them.
    pub numbered: Vec<Term>,
}

const TAGS: [&str; 13] = ["", "", "", "en", "en-gb", "en-", "fr", "e", "eng", "-", "--", "--------", "abcdefgh"];

/// One of these strings with another tag.
fn same_text(rng: &mut Rng, listed: &[Term]) -> Option<Term> {
    let texts = listed.iter().filter_map(|term| if let Term::Str(_, text) = term { Some(*text) } else { None });
    let texts: Vec<_> = texts.collect();
    let text = *rng.pick(&texts[..texts.len().min(2)])?;
    let tag = rng.one(&["", "en-gb", "eng", "fr", "e-", "-", "-e", "abcdefgh"]);
    Some(Term::Str(fill(tag.as_bytes()), text))
}

fn near(rng: &mut Rng, limit: i64) -> i64 {
    let n = limit - rng.below(3) as i64;
    if rng.one_in(2) {
        n
    } else {
        -n
    }
}

/// A term of this kind, the number making most of them different.
pub fn term(rng: &mut Rng, texts: Texts, datatype: Datatype, n: usize) -> Term {
    let small = rng.below(9) as i64 - 4;
    match datatype {
        Datatype::AnyUri => Term::Uri(fill(&texts.uri(rng, n))),
        Datatype::String => Term::Str(fill(rng.one(&TAGS).as_bytes()), fill(&texts.string(rng, n))),
        Datatype::Integer => Term::Int(match rng.below(6) {
            0 => near(rng, INTEGER_LIMIT),
            1 => n as i64,
            2 => rng.next() as i64 % (INTEGER_LIMIT + 1),
            _ => small,
        }),
        Datatype::Decimal => Term::Dec(match rng.below(6) {
            0 => near(rng, DECIMAL_LIMIT),
            1 => n as i64 * MILLION / 2,
            2 => rng.next() as i64 % (DECIMAL_LIMIT + 1),
            3 => small,
            _ => small * MILLION / 2,
        }),
        Datatype::DateTime => Term::Time(match rng.below(6) {
            0 => SECONDS_AFTER - rng.below(3) as i64,
            1 => rng.below(3) as i64 - SECONDS_BEFORE,
            2 => (rng.next() % (SECONDS_AFTER + SECONDS_BEFORE + 1) as u64) as i64 - SECONDS_BEFORE,
            3 => n as i64,
            _ => small * 86_400,
        }),
    }
}

/// A datatype, URIs more often than the others.
pub fn datatype(rng: &mut Rng) -> Datatype {
    Datatype::ALL[rng.weighted(&[5, 3, 3, 2, 3])]
}

impl Pool {
    /// Draws the words of a case.
    pub fn new(rng: &mut Rng) -> Pool {
        let size = [Size::Small, Size::Middle, Size::Full][rng.weighted(&[89, 8, 3])];
        let texts = Texts::new(rng);
        let (count, entries) = match size {
            Size::Small if rng.one_in(20) => (rng.within(0, 4), rng.within(0, 2)),
            Size::Small => (rng.within(5, 14), rng.within(2, 7)),
            Size::Middle => (rng.within(10, 60), rng.within(3, 20)),
            Size::Full => (rng.within(360, 512), if rng.one_in(2) { rng.within(120, 129) } else { 5 }),
        };
        let mut listed: Vec<Term> = Vec::new();
        let mut seen = std::collections::HashSet::new();
        for n in 0..count {
            let datatype = if n < 5 && rng.percent(70) { Datatype::ALL[n] } else { datatype(rng) };
            let word = term(rng, texts, datatype, n);
            if seen.insert(word) {
                listed.push(word);
            }
        }
        let twins = if size == Size::Full || rng.one_in(3) { 0 } else { rng.within(1, 4) };
        for _ in 0..twins {
            listed.extend(same_text(rng, &listed).filter(|word| seen.insert(*word)));
        }
        let neighbours = if size == Size::Full || !texts.are_long() { 0 } else { rng.within(2, 6) };
        for _ in 0..neighbours {
            listed.extend(rng.pick(&listed).and_then(|word| other_end(rng, word)).filter(|word| seen.insert(*word)));
        }
        let mut schema: Vec<(Uri, Datatype)> = Vec::new();
        for n in 0..entries {
            let own = rng.pick(&listed).copied();
            let uri = match own {
                Some(Term::Uri(uri)) if rng.one_in(5) => uri,
                _ => fill(&texts.property(rng, n)),
            };
            if schema.iter().all(|(other, _)| *other != uri) {
                let datatype = if n < 5 && rng.percent(60) { Datatype::ALL[n] } else { datatype(rng) };
                schema.push((uri, datatype));
            }
        }
        rng.shuffle(&mut listed);
        rng.shuffle(&mut schema);
        let mut pool = Pool { size, texts, numbered: listed.clone(), listed, schema };
        for (uri, _) in &pool.schema {
            let term = Term::Uri(*uri);
            if !seen.contains(&term) {
                pool.numbered.push(term);
            }
        }
        pool
    }

    /// The listed terms as bytes.
    pub fn term_bytes(&self) -> Vec<u8> {
        terms(&self.listed)
    }

    /// The schema as bytes.
    pub fn schema_bytes(&self) -> Vec<u8> {
        self.schema.iter().flat_map(|(uri, datatype)| entry(uri, *datatype)).collect()
    }

    /// The schema datatype of a term.
    pub fn range(&self, term: &Term) -> Option<Datatype> {
        match term {
            Term::Uri(uri) => self.schema.iter().find(|(property, _)| property == uri).map(|(_, d)| *d),
            _ => None,
        }
    }

    /// The number of a term that has this type, if there is one. Low numbers come up more often.
    pub fn with_type(&self, rng: &mut Rng, wanted: Type) -> Option<usize> {
        let has = |number: &usize| self.numbered[*number].has_type(self.range(&self.numbered[*number]), wanted);
        let some: Vec<usize> = (0..self.numbered.len().min(80)).filter(has).collect();
        let few = if rng.one_in(2) { some.len().min(3) } else { some.len() };
        some.get(rng.below(few)).copied()
    }

    /// The number of the term with the largest amount, if there is one with an amount.
    pub fn largest(&self) -> Option<usize> {
        let amount = |number: &usize| match self.numbered[*number] {
            Term::Int(n) => Some(n.abs() * MILLION),
            Term::Dec(n) => Some(n.abs()),
            _ => None,
        };
        (0..self.numbered.len()).max_by_key(amount).filter(|number| amount(number).is_some())
    }

    /// The number of a property that ranges over a datatype at or above this one.
    pub fn property_over(&self, rng: &mut Rng, object: Datatype) -> Option<usize> {
        let fits: Vec<&Uri> = self.schema.iter().filter(|(_, d)| object.le(*d)).map(|(uri, _)| uri).collect();
        let uri = **rng.pick(&fits)?;
        self.numbered.iter().position(|term| *term == Term::Uri(uri))
    }
}
