//! Texts: every pair of many names or URIs is asked whether each is less than the other, or fits a pattern, which never holds.

use crate::texts::Texts;
use compare::call::{Call, Engine, Station};
use compare::draw::ranks::turn;
use willetcoffer::script::*;
use willetcoffer::{BadTerm, Card, Datatype, Term, Type};

/// Variables.
const X: u8 = 0;
const Y: u8 = 1;

/// A workload.
#[derive(Clone, Copy, Debug)]
pub struct Row {
    /// Its name.
    pub name: &'static str,
    /// What is asked.
    pub by: By,
    /// How long the texts are.
    pub texts: Texts,
    /// Whether by ranks turned round.
    pub turned: bool,
}

/// The workloads.
pub fn rows() -> [Row; 10] {
    let row = |name, by, texts| Row { name, by, texts, turned: false };
    [
        row("every pair of names, by text", By::Text, Texts::Short),
        row("every pair of names, by tag", By::Tag, Texts::Short),
        Row { turned: true, ..row("the same by ranks turned round", By::Text, Texts::Short) },
        row("every pair of long names, by text", By::Text, Texts::Long),
        row("every pair of long names, by tag", By::Tag, Texts::Long),
        Row { turned: true, ..row("long names, ranks turned round", By::Text, Texts::Long) },
        row("every pair of URIs", By::Uri, Texts::Short),
        row("every pair of long URIs", By::Uri, Texts::Long),
        row("every pair of names, by a pattern", By::Pattern, Texts::Short),
        row("long names, by a pattern", By::Pattern, Texts::Long),
    ]
}

/// What is asked.
#[derive(Clone, Copy, PartialEq, Eq, Debug)]
pub enum By {
    /// Less on strings that differ in their texts, after a long beginning that all have.
    Text,
    /// Less on strings that differ in their tags; all have the same text, which fills its field or the one of before.
    Tag,
    /// Less on URIs.
    Uri,
    /// A pattern on strings that fits none, and is tried to the end of each.
    Pattern,
}

fn name(by: By, texts: Texts, n: usize) -> Result<Term, BadTerm> {
    match by {
        By::Text | By::Pattern => Term::tagged("en", &texts.of(&format!("Locomotive of the northern yard {n}"))),
        By::Tag => {
            let letter = |n: usize| char::from(b'a' + (n % 26) as u8);
            let tag: String = ['e', 'n', '-', letter(n / 676), letter(n / 26), letter(n)].iter().collect();
            Term::tagged(&tag, &texts.of("The fastest locomotive of northern yards"))
        }
        By::Uri => Term::uri(&texts.of(&format!("http://club.example/yard/loco/{n}"))),
    }
}

/// An each block that tries every pair: x less than y, and y less than x; or whether a pattern fits both.
fn script(by: By) -> Script {
    let datatype = if by == By::Uri { Datatype::AnyUri } else { Datatype::String };
    let asked = match by {
        By::Pattern => or(regex("y.*d.*!", var(X)), regex("n.*y.*!$", var(Y))),
        _ => and(less(var(X), var(Y)), less(var(Y), var(X))),
    };
    each(&[(X, Some(Type::Data(datatype))), (Y, Some(Type::Data(datatype)))], filter(asked), success())
}

/// A station of so many names by the built-in ranks, or by these turned round, and its run call.
pub fn station(engine: &dyn Engine, row: Row, names: usize) -> Result<(Station, Call), BadTerm> {
    let Row { by, texts, turned, .. } = row;
    let listed = (0..names).map(|n| name(by, texts, n)).collect::<Result<Vec<Term>, BadTerm>>()?;
    let mut station = Station::new(Card::new(&listed, &[], script(by)), 0);
    if turned {
        turn(&mut station.ranks);
    }
    assert_eq!(station.call(engine, &Call::Load).code, 0);
    Ok((station, Call::run(1, 0)))
}
