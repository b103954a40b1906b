//! The card of the demonstration, and the pages that its club publishes.

use willetcoffer::page::triple;
use willetcoffer::script::*;
use willetcoffer::{BadTerm, Card, Datatype, Term, Type};

/// The yard's graph, by its term number; then 60, and the schema's URIs.
pub const YARD: u16 = 0;
const SIXTY: u16 = 1;
const NAME: u16 = 2;
const SPEED: u16 = 3;
const CLOSES: u16 = 4;

/// Variables, with what the panel calls them.
pub const NAMES: [(u8, &str); 4] = [(LOCO, "$loco"), (CALLED, "$name"), (FAST, "$speed"), (CLOSE, "$closes")];
const LOCO: u8 = 0;
/// The variable of a locomotive's name.
pub const CALLED: u8 = 1;
/// The variable of its speed.
pub const FAST: u8 = 2;
const CLOSE: u8 = 3;

/// Terms, schema and script: from the yard, each locomotive with a name and a speed above 60; then, once the yard closes
/// after now, the end.
pub fn card() -> Result<Card, BadTerm> {
    let (listed, properties) = words()?;
    let roster = each(&[(LOCO, None), (CALLED, None), (FAST, None)], quick(), success());
    Ok(Card::new(&listed, &properties, from_named(con(YARD), sequence(roster, closing()))))
}

type Words = ([Term; 2], [(Term, Datatype); 3]);

/// The listed terms and the schema.
fn words() -> Result<Words, BadTerm> {
    let listed = [Term::uri("http://club.example/yard")?, Term::integer(60)?];
    let properties = [
        (Term::uri("p:name")?, Datatype::String),
        (Term::uri("p:speed")?, Datatype::Decimal),
        (Term::uri("p:closes")?, Datatype::DateTime),
    ];
    Ok((listed, properties))
}

/// A locomotive with a name and a speed above 60.
fn quick() -> Query {
    let has = |property, object| pattern([con(YARD), var(LOCO), con(property), var(object)]);
    both(both(has(NAME, CALLED), has(SPEED, FAST)), filter(less(con(SIXTY), var(FAST))))
}

/// Once the yard closes after now, the end.
fn closing() -> Script {
    let closes = pattern([con(YARD), con(YARD), con(CLOSES), var(CLOSE)]);
    once(&[(CLOSE, None)], both(closes, filter(less(now(), var(CLOSE)))), success())
}

/// The same with once blocks alone, so that it takes a known number of steps: from the yard, the first locomotive with a name and a
/// speed above 60; then, once the yard closes after now, the end.
pub fn once_card() -> Result<Card, BadTerm> {
    let (listed, properties) = words()?;
    let first = once(&[(LOCO, None), (CALLED, None), (FAST, None)], quick(), success());
    Ok(Card::new(&listed, &properties, from_named(con(YARD), sequence(first, closing()))))
}

/// The variables of the card that can be read in two ways.
pub const UNDECIDED: [(u8, &str); 3] = [(LOCO, "$loco"), (PROPERTY, "$property"), (VALUE, "$value")];
const PROPERTY: u8 = 1;
const VALUE: u8 = 2;

/// A locomotive, its speed, and a property by which it has the same value; with this type written at this variable, if one is. By itself a
/// load refuses it with 9: the value may be a decimal or an integer, and the property has range(decimal) or range(integer).
pub fn undecided(written: Option<(u8, Type)>) -> Result<Card, BadTerm> {
    let (listed, properties) = words()?;
    let has = |property| pattern([con(YARD), var(LOCO), property, var(VALUE)]);
    let pairs = UNDECIDED.map(|(v, _)| (v, written.filter(|(at, _)| *at == v).map(|(_, written_type)| written_type)));
    Ok(Card::new(&listed, &properties, once(&pairs, both(has(con(SPEED)), has(var(PROPERTY))), success())))
}

/// Another station that has a look at the yard: its terms have other numbers. With the number of the yard.
pub fn second_station() -> Result<(Card, u16), BadTerm> {
    let ([yard, sixty], mut properties) = words()?;
    properties.reverse();
    Ok((Card::new(&[sixty, yard], &properties, from_named(con(1), success())), 1))
}

/// The records of some triples.
fn page(triples: &[(Term, &str, Term)]) -> Result<Vec<u8>, BadTerm> {
    let mut bytes = Vec::new();
    for (subject, property, object) in triples {
        bytes.extend(triple(subject, &Term::uri(property)?, object).ok_or(BadTerm::Uri)?);
    }
    Ok(bytes)
}

fn loco(number: usize) -> Result<Term, BadTerm> {
    Term::uri(&format!("http://club.example/loco/{number}"))
}

/// Three locomotives, one too slow; and a fourth whose speed is a string: that record is skipped.
pub fn first_page() -> Result<Vec<u8>, BadTerm> {
    let stock = [
        (Term::tagged("en", "Mallard")?, Term::decimal(126_400_000)?),
        (Term::tagged("en", "Puffing Billy")?, Term::integer(5)?),
        (Term::tagged("de", "Adler")?, Term::decimal(65_000_000)?),
        (Term::tagged("en", "Rocket")?, Term::string("quite fast")?),
    ];
    let mut triples = Vec::new();
    for (number, (name, speed)) in (1..).zip(stock) {
        triples.extend([(loco(number)?, "p:name", name), (loco(number)?, "p:speed", speed)]);
    }
    page(&triples)
}

/// One locomotive, and when the yard closes: the end of 2026.
pub fn second_page() -> Result<Vec<u8>, BadTerm> {
    page(&[
        (loco(1)?, "p:name", Term::tagged("en", "Mallard")?),
        (loco(1)?, "p:speed", Term::decimal(126_400_000)?),
        (Term::uri("http://club.example/yard")?, "p:closes", Term::date_time(1_798_675_200)?),
    ])
}
