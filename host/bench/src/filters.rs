//! A union with a part of filters alone, over a table of many URIs: such a part leaves every variable that it does not name to all
//! terms of its type. It is the block that took longest in the comparison: the first of case 990017:369872 as it was drawn before
//! scripts had a total.

use compare::call::{Call, Engine, Station};
use willetcoffer::page::triple;
use willetcoffer::script::*;
use willetcoffer::{BadTerm, Card, Datatype, Term, Type};

/// Listed terms: two yards; then three decimals and two integers; the schema's URIs follow.
const YARD: u16 = 0;
const OTHER: u16 = 1;
const NUMBERS: u16 = 5;
const FRIEND: u16 = 2 + NUMBERS;
const SPEED: u16 = 3 + NUMBERS;

/// Variables: any URI, a graph that is a subject too, a number, a subject that is a graph too.
const U: u8 = 0;
const G: u8 = 1;
const V: u8 = 2;
const S: u8 = 3;

/// A once block that waits: nothing is stored that its patterns ask for, and no URI has a text that the filters ask for.
fn script() -> Script {
    let patterns = both(
        both(
            pattern([var(G), var(G), con(SPEED), var(V)]),
            both(pattern([con(OTHER), var(S), con(FRIEND), var(U)]), pattern([var(S), var(G), con(FRIEND), var(S)])),
        ),
        pattern([var(G), con(OTHER), con(SPEED), var(V)]),
    );
    let either = union(patterns, filter(regex("^19.*Z$", str(var(S)))));
    let query = both(either, filter(or(equal(con(YARD), var(G)), regex("b$", str(var(S))))));
    once(&[(U, Some(Type::Data(Datatype::AnyUri))), (G, None), (V, None), (S, None)], query, success())
}

/// A station with this block on top of its stack, so many URIs in the table and 32 quads, and its run call.
pub fn station(engine: &dyn Engine, uris: usize) -> Result<(Station, Call), BadTerm> {
    let [friend, speed] = [Term::uri("p:friend")?, Term::uri("p:speed")?];
    let mut listed = vec![Term::uri("u:yard")?, Term::uri("u:other")?];
    for n in 0..i64::from(NUMBERS) {
        listed.push(if n < 3 { Term::decimal(n * 500_000)? } else { Term::integer(n)? });
    }
    let schema = [(friend, Datatype::AnyUri), (speed, Datatype::Decimal)];
    let mut station = Station::new(Card::new(&listed, &schema, script()), 0);
    assert_eq!(station.call(engine, &Call::Load).code, 0);
    // The first page brings the URIs, the second has few of them.
    let subjects = uris - 4;
    for (subjects, records) in [(subjects, subjects), (8, 32)] {
        let mut page = Vec::new();
        for n in 0..records {
            let subject = Term::uri(&format!("u:{}", n % subjects))?;
            let number = &listed[2 + n % usize::from(NUMBERS)];
            page.extend(triple(&subject, &speed, number).into_iter().flatten());
        }
        assert_eq!(station.call(engine, &Call::page(usize::from(YARD), page)).code, 0);
    }
    Ok((station, Call::run(1, 0)))
}
