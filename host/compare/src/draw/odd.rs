//! A call that is lent something odd, after which the case goes on as if it had not been made: a card, page or table of before, or one
//! with a byte at an edge of a text changed.

use super::rng::Rng;
use super::Draw;
use crate::before;
use crate::call::{Call, Station};
use crate::records;
use second::edge::EDGES;
use second::page;
use second::schema::Schema;
use second::term::{trim, Term};
use second::terms::read_listed;
use willetcoffer::kinds::{PAGE, STRING, URI};
use willetcoffer::limits::{OBJECT_OFFSET, PROPERTY_OFFSET, SLOT_WIDTH, TAG_WIDTH, TERM_TABLE_WIDTH, TEXT_WIDTH};
use willetcoffer::page::records as page_records;

/// What is odd.
#[derive(Clone, Copy, PartialEq, Eq, Debug)]
pub enum Odd {
    /// Listed terms of before.
    OldTerms,
    /// A schema of before.
    OldSchema,
    /// Terms and schema of before.
    OldCard,
    /// A term table of before.
    OldTable,
    /// Card and term table of before.
    OldStation,
    /// Slots of before in a term table of now.
    OldSlots,
    /// A page of before.
    OldPage,
    /// A byte of a listed text, this one of those at an edge.
    TermsAt(usize),
    /// A byte of a property in the schema.
    SchemaAt(usize),
    /// A byte of a text in the page.
    PageAt(usize),
    /// A byte of a text in the term table.
    SlotAt(usize),
    /// A byte after the record in a slot of the term table.
    SlotPast,
}

impl Odd {
    /// What it is called where a call is told.
    pub fn label(self) -> &'static str {
        match self {
            Odd::OldTerms => "terms of before",
            Odd::OldSchema => "schema of before",
            Odd::OldCard => "card of before",
            Odd::OldTable => "term table of before",
            Odd::OldStation => "card and term table of before",
            Odd::OldSlots => "slots of before",
            Odd::OldPage => "page of before",
            Odd::TermsAt(_) => "a text of the terms",
            Odd::SchemaAt(_) => "a property of the schema",
            Odd::PageAt(_) => "a text of the page",
            Odd::SlotAt(_) => "a text of a slot",
            Odd::SlotPast => "a slot after its record",
        }
    }

    /// The byte that was changed, where it is one at an edge.
    pub fn edge(self) -> Option<usize> {
        match self {
            Odd::TermsAt(edge) | Odd::SchemaAt(edge) | Odd::PageAt(edge) | Odd::SlotAt(edge) => Some(edge),
            _ => None,
        }
    }
}

/// Where the texts of a term's record begin.
fn text_of_term(kind: u8) -> Option<usize> {
    match kind {
        URI => Some(1),
        STRING => Some(1 + TAG_WIDTH),
        _ => None,
    }
}

/// Where the texts of a page's record begin.
fn texts_of_triple(kind: u8) -> Vec<usize> {
    let object = text_of_term(kind.wrapping_sub(PAGE)).map(|text| OBJECT_OFFSET - 1 + text);
    [1, PROPERTY_OFFSET].into_iter().chain(object).collect()
}

/// Where texts begin among joined records, given where they begin in each.
fn texts<'a>(records: impl Iterator<Item = &'a [u8]>, of: impl Fn(u8) -> Vec<usize>) -> Vec<usize> {
    let mut starts = Vec::new();
    let mut at = 0;
    for record in records {
        starts.extend(of(record[0]).into_iter().map(|text| at + text));
        at += record.len();
    }
    starts
}

/// Changes a byte at an edge of one of the texts that begin here, often of one that ends there: to another that a text may have, to a zero, or
/// to one that no text has. Gives the edge.
fn change(rng: &mut Rng, bytes: &mut [u8], texts: &[usize]) -> Option<usize> {
    let edge = rng.one(&EDGES);
    let ends = |text: &&usize| bytes.get(**text..**text + TEXT_WIDTH).is_some_and(|field| trim(field).len() == edge);
    let ending: Vec<usize> = texts.iter().filter(ends).copied().collect();
    let texts = if ending.is_empty() || rng.one_in(4) { texts } else { &ending };
    let place = bytes.get_mut(rng.pick(texts)? + edge - 1)?;
    let others = [0, 0, b'a', b'A', b'~', 0x1f, 0x7f, 0xff];
    let others: Vec<u8> = others.into_iter().filter(|byte| byte != place).collect();
    *place = rng.one(&others);
    Some(edge)
}

impl Draw {
    /// Makes something odd of what a call is lent; none where it has nothing of the sort that was drawn.
    pub fn odd(&mut self, station: &mut Station, call: &mut Call) -> Option<Odd> {
        let rng = &mut self.rng;
        match (call, rng.below(8)) {
            (_, 0) => old_card(rng, station),
            (Call::Load | Call::Total { .. } | Call::Suggest { .. }, 1..=2) => old_card(rng, station),
            (Call::Load, 3) | (Call::Run { .. } | Call::Page { .. } | Call::Publish { .. }, 1..=2) => {
                old_table(rng, station)
            }
            (Call::Load | Call::Total { .. } | Call::Suggest { .. }, _) => card_at_an_edge(rng, station),
            (Call::Page { page, .. }, 3..=4) => {
                *page = before::page(&page::read(page).ok()?);
                (!page.is_empty()).then_some(Odd::OldPage)
            }
            (Call::Page { page, .. }, 5..=6) => {
                let texts = texts(page_records(page), texts_of_triple);
                change(rng, page, &texts).map(Odd::PageAt)
            }
            (Call::Run { .. } | Call::Page { .. } | Call::Publish { .. }, _) => slot(rng, station),
        }
    }
}

fn old_card(rng: &mut Rng, station: &mut Station) -> Option<Odd> {
    let card = &mut station.card;
    let terms = before::terms(&read_listed(&card.terms).ok()?);
    let schema = before::schema(&Schema::read(&card.schema).ok()?);
    let odd = rng.one(&[Odd::OldTerms, Odd::OldSchema, Odd::OldCard]);
    if odd != Odd::OldSchema {
        card.terms = terms;
    }
    if odd != Odd::OldTerms {
        card.schema = schema;
    }
    Some(odd)
}

fn terms_in_use(station: &Station) -> Vec<Term> {
    station.term_table.chunks(SLOT_WIDTH).map_while(Term::from_slot).collect()
}

fn old_table(rng: &mut Rng, station: &mut Station) -> Option<Odd> {
    let odd = rng.one(&[Odd::OldTable, Odd::OldTable, Odd::OldStation, Odd::OldSlots, Odd::OldSlots]);
    if odd == Odd::OldStation {
        old_card(rng, station)?;
    }
    station.term_table = before::table(&terms_in_use(station));
    if odd == Odd::OldSlots {
        station.term_table.resize(TERM_TABLE_WIDTH, 0);
    }
    Some(odd)
}

fn card_at_an_edge(rng: &mut Rng, station: &mut Station) -> Option<Odd> {
    let card = &mut station.card;
    if rng.one_in(2) {
        let records = records::terms(&card.terms);
        let texts = texts(records.iter().map(Vec::as_slice), |kind| text_of_term(kind).into_iter().collect());
        change(rng, &mut card.terms, &texts).map(Odd::TermsAt)
    } else {
        let records = records::entries(&card.schema);
        let texts = texts(records.iter().map(Vec::as_slice), |_| vec![1]);
        change(rng, &mut card.schema, &texts).map(Odd::SchemaAt)
    }
}

/// A byte of a used slot: of its text, mostly of a term that a page brought, or after its record.
fn slot(rng: &mut Rng, station: &mut Station) -> Option<Odd> {
    let loaded = records::numbered(&station.card).len();
    let used = station.used();
    let first = if rng.one_in(4) { 0 } else { loaded.min(used) };
    let kinds = (first..used).map(|number| (SLOT_WIDTH * number, station.term_table[SLOT_WIDTH * number]));
    if rng.one_in(4) {
        let (slot, kind) = *rng.pick(&kinds.filter(|(_, kind)| *kind != STRING).collect::<Vec<_>>())?;
        let end = 1 + Term::body_length(kind)?;
        let at = if rng.one_in(2) { SLOT_WIDTH - 1 } else { rng.within(end, SLOT_WIDTH - 1) };
        station.term_table[slot + at] = rng.one(&[1, b'x', 0xff]);
        return Some(Odd::SlotPast);
    }
    let texts: Vec<usize> = kinds.filter_map(|(slot, kind)| text_of_term(kind).map(|text| slot + text)).collect();
    change(rng, &mut station.term_table, &texts).map(Odd::SlotAt)
}
