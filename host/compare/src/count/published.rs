//! Graphs that are published: what was asked for, and what was written.

use super::coverage::{Required, CASES_FOR_A_LOOK, CASES_FOR_ONE, CASES_FOR_TWO};
use super::texts::{Places, PUBLISHED};
use super::Coverage;
use crate::call::{Call, Made, Station};
use crate::judge::published::page_of;
use second::edge::EDGES;
use second::page::{read, Triple};
use second::term::Term;
use std::collections::BTreeSet;
use willetcoffer::limits::{OBJECT_OFFSET, PROPERTY_OFFSET};
use willetcoffer::page::records;

/// How many records there are.
const GRAPH: &str = "published graph";
/// Of which kinds they are.
const RECORD: &str = "published record";
/// How long the lent buffer is.
const BUFFER: &str = "publish buffer";
/// How long the lent report is.
const REPORT: &str = "publish report of";
/// Which graph meets 22.
const NOT_FETCHED: &str = "not fetched";
/// What a refusal of a publish call comes before.
const BEFORE: &str = "publish refused";
/// How records that follow one another differ.
const NEIGHBOURS: &str = "published neighbours";
/// What a page is held to.
const PAGE: &str = "published page";

/// What a long enough run of so many cases has to meet of graphs that are published.
pub(super) fn required(cases: u64) -> Vec<Required> {
    let rows: [(&'static str, &[&str], u64); 9] = [
        ("publish", &["00", "10", "22", "23"], CASES_FOR_ONE),
        (GRAPH, &["empty", "of one record", "of more records", "of all kinds"], CASES_FOR_ONE),
        (RECORD, &["81", "82", "83", "84", "85"], CASES_FOR_ONE),
        (BUFFER, &["one byte short", "empty", "shorter", "exact", "one byte longer", "longer"], CASES_FOR_ONE),
        (
            NEIGHBOURS,
            &[
                "of two kinds",
                "other subjects",
                "other properties",
                "other objects",
                "not by amount",
                "not as the quads",
            ],
            CASES_FOR_ONE,
        ),
        (
            PAGE,
            &["taken in again", "the same elsewhere", "as many bytes as its page", "fewer bytes than its page"],
            CASES_FOR_ONE,
        ),
        ("publish", &["01"], CASES_FOR_A_LOOK),
        (NOT_FETCHED, &["a URI", "no URI", "no term", "past 16 bits"], CASES_FOR_A_LOOK),
        (PAGE, &["too long to be taken in"], CASES_FOR_A_LOOK),
    ];
    let mut all: Vec<Required> = Vec::new();
    for (section, keys, cases_for_one) in rows {
        all.extend(keys.iter().map(|key| (section, key.to_string(), cases / cases_for_one)));
    }
    let before = ["10 and a graph not fetched", "10 and a short buffer", "22 and an empty buffer"];
    all.extend(before.map(|key| (BEFORE, key.to_string(), cases / CASES_FOR_TWO)));
    all.extend(["0", "3", "5"].map(|length| (REPORT, length.to_string(), cases / CASES_FOR_TWO)));
    for edge in EDGES {
        all.extend(PUBLISHED.map(|place| (place, edge.to_string(), cases / CASES_FOR_A_LOOK)));
    }
    all
}

impl Coverage {
    /// Counts a graph that was to be published, and what its page was held to.
    pub fn published(&mut self, made: &Made, laws: &[&'static str]) {
        let Call::Publish { graph, room, report } = made.call else { return };
        let (station, answer) = (made.before, &made.answers[0]);
        self.add(REPORT, report.to_string());
        laws.iter().for_each(|law| self.add(PAGE, *law));
        match answer.code {
            10 if !station.has_fetched(*graph) => self.add(BEFORE, "10 and a graph not fetched"),
            10 if *room == 0 && station.triples(*graph).next().is_some() => self.add(BEFORE, "10 and a short buffer"),
            22 => {
                self.add(NOT_FETCHED, sort_of(station, *graph));
                if *room == 0 {
                    self.add(BEFORE, "22 and an empty buffer");
                }
            }
            0 | 23 => {
                let length = page_of(station, *graph).len();
                let key = match room.checked_sub(length) {
                    None if *room == 0 => "empty",
                    None if *room + 1 == length => "one byte short",
                    None => "shorter",
                    Some(0) => "exact",
                    Some(1) => "one byte longer",
                    Some(_) => "longer",
                };
                self.add(BUFFER, key);
            }
            _ => {}
        }
        if let Some((page, _)) = answer.published() {
            self.page(page, station.triples(*graph).collect());
        }
    }

    /// Counts the records of a page, beside those of the quads in their order.
    fn page(&mut self, page: &[u8], quads: Vec<Vec<u8>>) {
        let all: Vec<&[u8]> = records(page).collect();
        let kinds: BTreeSet<u8> = all.iter().map(|record| record[0]).collect();
        self.add(GRAPH, ["empty", "of one record"].get(all.len()).copied().unwrap_or("of more records"));
        if kinds.len() == 5 {
            self.add(GRAPH, "of all kinds");
        }
        kinds.iter().for_each(|kind| self.add(RECORD, format!("{kind:x}")));
        let mut neighbours: BTreeSet<&str> = all.windows(2).filter_map(|two| differ(two[0], two[1])).collect();
        if all.windows(2).any(|two| falls(two[0], two[1])) {
            neighbours.insert("not by amount");
        }
        if all != quads {
            neighbours.insert("not as the quads");
        }
        neighbours.into_iter().for_each(|key| self.add(NEIGHBOURS, key));
        let mut places = Places::default();
        // One by one, as all of them may be more than a page has.
        for Triple { subject, property, object } in all.iter().flat_map(|record| read(record).unwrap_or_default()) {
            places.text(PUBLISHED[0], &subject);
            places.text(PUBLISHED[1], &property);
            places.term([PUBLISHED[2], PUBLISHED[3]], &object);
        }
        self.places(places);
    }
}

/// What a number that is not fetched stands for.
fn sort_of(station: &Station, graph: u64) -> &'static str {
    let slot = |graph: u16| station.term_table.chunks(second::limits::SLOT).nth(usize::from(graph));
    match u16::try_from(graph).map(|graph| slot(graph).and_then(Term::from_slot)) {
        Err(_) => "past 16 bits",
        Ok(None) => "no term",
        Ok(Some(Term::Uri(_))) => "a URI",
        Ok(Some(_)) => "no URI",
    }
}

/// In which part two records differ first.
fn differ(a: &[u8], b: &[u8]) -> Option<&'static str> {
    let place = a.iter().zip(b).position(|(a, b)| a != b)?;
    Some(match place {
        0 => "of two kinds",
        1..PROPERTY_OFFSET => "other subjects",
        PROPERTY_OFFSET..OBJECT_OFFSET => "other properties",
        _ => "other objects",
    })
}

/// Whether two records differ in their numbers alone, and the first is the greater.
fn falls(a: &[u8], b: &[u8]) -> bool {
    let amount = |record: &[u8]| record[OBJECT_OFFSET..].try_into().ok().map(i64::from_le_bytes);
    a[..OBJECT_OFFSET] == b[..OBJECT_OFFSET] && amount(a).zip(amount(b)).is_some_and(|(a, b)| a > b)
}
