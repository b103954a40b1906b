//! What was met, and whether it was met often enough.

use super::published;
use super::texts::{PLACES, SKIPPED};
use second::edge::{Look, EDGES};
use second::note::Note;
use std::collections::BTreeMap;
use std::fmt::Write;
use willetcoffer::limits::VARIABLE_LIMIT;

/// Counts by section and key.
#[derive(Default)]
pub struct Coverage {
    counts: BTreeMap<(&'static str, String), u64>,
}

/// How often each of what is required is to be met.
pub(super) const ENOUGH: u64 = 100;
/// What a call notes, a store in another order and a store that a page leaves again are to be met by one call for so many cases: each
/// 1,000 times in the gate's 50,000.
pub(super) const CASES_FOR_ONE: u64 = 50;

/// What looks at texts at an edge, and what is lent in the widths of before or with a byte at an edge changed so that it is refused, are to
/// be met by one call for so many cases: each 100 times in 50,000.
pub(super) const CASES_FOR_A_LOOK: u64 = 500;

/// Two refusals that a call would meet together are to be met by one call for so many cases: each pair 50 times in 50,000.
pub(super) const CASES_FOR_TWO: u64 = 1_000;

/// A byte at an edge that is changed and leaves a good text is to be met by one call for so many cases: 25 times in 50,000.
const CASES_FOR_ANOTHER: u64 = 2_000;

/// The sorts of ranks in which each stands once.
const GOOD_RANKS: [&str; 4] = ["built in", "built in, turned round", "by byte", "others"];
/// The sorts of those that are none.
const BAD_RANKS: [&str; 6] = [
    "of 94 bytes",
    "of 96 bytes",
    "of another length",
    "with a rank twice, one missing",
    "with a rank of 95",
    "with a rank over 95",
];

/// The lines of an evaluator that are a tuple's.
const OF_TUPLES: [&str; 3] = ["bad", "true", "false"];
/// From so many tuples on, what an evaluator may write is required.
const TUPLES: u64 = 50_000;

/// Something to be met: its section and key, and how often.
pub(super) type Required = (&'static str, String, u64);

/// What a long enough run of so many cases has to meet, and how often: each refusal of each call, each script kind, each state, also
/// where the total is known, each place of each blocks, each type, each sort of ranks, each note, each change of a store's order, each way
/// to a store again, refusals together, and at each edge each place that has a text and each look at one.
fn required(cases: u64) -> Vec<Required> {
    let mut all = Vec::new();
    let mut add = |section, keys: &[u32]| all.extend(keys.iter().map(|k| (section, format!("{k:02}"))));
    add("load", &[0, 1, 2, 3, 4, 5, 6, 7, 8, 9, 21]);
    add("run", &[0, 1, 10, 11, 21]);
    add("page", &[0, 1, 10, 12, 13, 14, 21]);
    add("total", &[0, 1, 2, 3, 4, 5, 6, 7]);
    add("suggest", &[0, 1, 2, 3, 4, 5, 6, 7, 8]);
    add("printer", &[0, 2, 3, 4, 5, 6, 7, 8, 9]);
    let kinds = [0x31..=0x32, 0x41..=0x45, 0x50..=0x58, 0x61..=0x65, 0x71..=0x74].into_iter().flatten();
    all.extend(kinds.map(|kind: u32| ("kind", format!("{kind:x}"))));
    all.extend(["once", "each"].map(|mode| ("kind", format!("73 {mode}"))));
    for section in ["state", "steps held to a total"] {
        all.extend(["ended", "wanted", "waiting", "spent"].map(|state| (section, state.to_string())));
    }
    let each = ["no each block", "each block at the root", "each block below the root only"];
    all.extend(each.map(|place| ("total of", place.to_string())));
    all.extend(willetcoffer::Type::all().map(|t| ("type", t.to_string())));
    all.extend((0x81..=0x85).map(|kind: u32| ("page record", format!("{kind:x}"))));
    for section in ["ranks of a load", "ranks of a run", "ranks of a page"] {
        all.extend(GOOD_RANKS.into_iter().chain(BAD_RANKS).map(|sort| (section, sort.to_string())));
    }
    all.extend(["as at the load", "others than at the load"].map(|which| ("ranks lent", which.to_string())));
    let in_order = ["order: one taken out sound", "order: another, in its place sound"];
    all.extend(in_order.map(|key| ("tampered", key.to_string())));
    let mut all: Vec<_> = all.into_iter().map(|(section, key)| (section, key, ENOUGH)).collect();
    all.extend(often().map(|(section, key)| (section, key.to_string(), cases / CASES_FOR_ONE)));
    all.extend(suggestions(cases));
    all.extend(together().map(|(section, key)| (section, key.to_string(), cases / CASES_FOR_TWO)));
    for edge in EDGES.map(|edge| edge.to_string()) {
        all.extend(PLACES.map(|place| (place, edge.clone(), cases / CASES_FOR_ONE)));
        let looks = Look::ALL.into_iter().map(Look::name).chain([SKIPPED]);
        all.extend(looks.map(|look| (look, edge.clone(), cases / CASES_FOR_A_LOOK)));
        for (verdict, cases_for_one) in [("refused", CASES_FOR_A_LOOK), ("taken", CASES_FOR_ANOTHER)] {
            let changed = CHANGED.map(|what| format!("{edge} of {what} {verdict}"));
            all.extend(changed.map(|key| ("byte changed", key, cases / cases_for_one)));
        }
    }
    all.extend(odd().map(|key| ("odd", key, cases / CASES_FOR_A_LOOK)));
    all.extend(published::required(cases));
    all
}

/// What suggestions are to say and to name in so many cases. No other code is the lowest of those that would do: where a variable may be of
/// several kinds it may be anyURI or have range(anyURI), and where it is a number decimal leaves it no less decided than integer.
fn suggestions(cases: u64) -> Vec<(&'static str, String, u64)> {
    let said = [("in the place of 9", cases / 10), ("written", cases / 20), ("none", cases / 50), ("accepted", ENOUGH)];
    let mut all: Vec<_> = said.map(|(what, enough)| ("suggestion", what.to_string(), enough)).to_vec();
    let mut add = |section, keys: &[&str]| {
        all.extend(keys.iter().map(|key| (section, key.to_string(), cases / CASES_FOR_A_LOOK)))
    };
    add("suggestion written", &["00"]);
    add("suggested code", &["1", "3", "9", "11", "13"]);
    add("suggested", &["at the lowest open variable", "after lower open variables"]);
    add("suggest report of", &["0", "3", "4", "5"]);
    all.extend((0..VARIABLE_LIMIT).map(|v| ("suggested variable", v.to_string(), cases / CASES_FOR_TWO)));
    all
}

/// Where a byte at an edge is changed.
const CHANGED: [&str; 4] =
    ["a text of the terms", "a property of the schema", "a text of the page", "a text of a slot"];

/// What is lent in the widths of before, and what a call has to say of it.
fn odd() -> impl Iterator<Item = String> {
    let rows: [(&str, &[&str]); 8] = [
        ("terms of before", &["load 02", "total 02", "suggest 02", "run 10", "page 10", "publish 10"]),
        ("schema of before", &["load 04", "total 04", "suggest 04", "run 10", "page 10", "publish 10"]),
        ("card of before", &["load 02", "total 02", "suggest 02", "run 10", "page 10", "publish 10"]),
        ("term table of before", &["load 01", "run 01", "page 01", "publish 01"]),
        ("card and term table of before", &["load 01", "run 01", "page 01", "publish 01"]),
        ("slots of before", &["run 10", "page 10", "publish 10"]),
        ("page of before", &["page 13"]),
        ("a slot after its record", &["run 10", "page 10", "publish 10"]),
    ];
    rows.into_iter().flat_map(|(what, calls)| calls.iter().map(move |call| format!("{what} in a {call}")))
}

/// Two refusals that a call would meet: 1 and 21, of which it gives 1, and 21 and another, of which it gives 21.
fn together() -> impl Iterator<Item = (&'static str, &'static str)> {
    let first = ["load", "run", "page"].map(|call| ("1 before 21", call));
    let loads = ["load 02", "load 03", "load 04", "load 05", "load 06", "load 07", "load 08", "load 09"];
    let others = ["run 10", "run 11", "page 10", "page 12", "page 13", "page 14", "load 00", "run 00", "page 00"];
    first.into_iter().chain(loads.into_iter().chain(others).map(|key| ("21 before", key)))
}

/// What grows with the number of cases.
fn often() -> impl Iterator<Item = (&'static str, &'static str)> {
    let orders = ["order: two swapped unsound", "order: one moved unsound", "order: one twice unsound"];
    let again = ["by the same page", "by another page"];
    let notes = Note::OF_CALLS.into_iter().map(Note::name);
    notes.chain(orders.map(|key| ("tampered", key))).chain(again.map(|key| ("a store again", key)))
}

/// What a long enough list of tuples has to meet: each line of an evaluator, and each second part left out and taken in.
fn required_of_tuples() -> Vec<(&'static str, String, u64)> {
    let single = ["too long", "cut off", "refused 21", "refused 10", "refused 11", "no block"];
    let lines = single.into_iter().chain(OF_TUPLES).map(|line| ("evaluator", line));
    let all = lines.chain(Note::OF_COUNTS.map(Note::name));
    all.map(|(section, key)| (section, key.to_string(), ENOUGH)).collect()
}

impl Coverage {
    /// Counts one.
    pub fn add(&mut self, section: &'static str, key: impl Into<String>) {
        self.add_many(section, key, 1);
    }

    /// Counts some.
    pub fn add_many(&mut self, section: &'static str, key: impl Into<String>, count: u64) {
        *self.counts.entry((section, key.into())).or_default() += count;
    }

    /// How often this was met.
    pub fn get(&self, section: &'static str, key: &str) -> u64 {
        self.counts.get(&(section, key.to_string())).copied().unwrap_or(0)
    }

    /// What was met too rarely in so many cases, of what is required.
    pub fn missing(&self, cases: u64) -> Vec<String> {
        let mut all = required(cases);
        if OF_TUPLES.map(|line| self.get("evaluator", line)).iter().sum::<u64>() >= TUPLES {
            all.extend(required_of_tuples());
        }
        self.few(all.into_iter())
    }

    /// What of these was met less often than it has to be.
    pub(super) fn few(&self, all: impl Iterator<Item = (&'static str, String, u64)>) -> Vec<String> {
        let few = all.filter(|(section, key, enough)| self.get(section, key) < *enough);
        few.map(|(section, key, enough)| format!("{section} {key}: {} of {enough}", self.get(section, &key))).collect()
    }

    /// The table, a section after the other.
    pub fn table(&self) -> String {
        let mut text = String::new();
        let mut last = "";
        let mut column = 0;
        for ((section, key), count) in &self.counts {
            if *section != last {
                let _ = write!(text, "{}{section}:", if last.is_empty() { "" } else { "\n" });
                (last, column) = (section, section.len());
            }
            let item = format!(" {key}={count}");
            if column + item.len() > 118 {
                text += "\n   ";
                column = 3;
            }
            column += item.len() + 1;
            text += &item;
            text.push(',');
        }
        text.push('\n');
        text
    }
}
