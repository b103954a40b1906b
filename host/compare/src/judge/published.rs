//! What an engine owes by itself about a graph that it publishes: the triples that the tables hold, in order; and three laws. Taken in at once
//! for the same graph, a page skips nothing and leaves the store as it was; a graph has no more bytes than the page that filled it; and
//! another station with the same triples under other numbers publishes the same bytes.

use super::{Breach, Difference, History};
use crate::call::{Call, Engine, Made, Station, UNWRITTEN};
use crate::records::entries;
use second::write::success;
use willetcoffer::kinds::{PAGE, URI};
use willetcoffer::limits::{OBJECT_OFFSET, PAGE_LIMIT, PROPERTY_OFFSET, SLOT_WIDTH, URI_WIDTH};
use willetcoffer::page::records;
use willetcoffer::ranks::BUILT_IN;
use willetcoffer::saved::QUADS;
use willetcoffer::{Card, PageReport};

/// The page of a graph, by the bytes of the tables.
pub fn page_of(station: &Station, graph: u64) -> Vec<u8> {
    let mut records: Vec<Vec<u8>> = station.triples(graph).collect();
    records.sort_unstable();
    records.dedup();
    records.concat()
}

/// Holds a graph that was published, or was refused with 22 or 23, to that; gives the names of what it was held to. The call was judged, so
/// that both engines have answered the same; `tampered` says whether the station was tampered with for it.
pub fn held(
    made: &Made,
    engines: [&dyn Engine; 2],
    tampered: bool,
    history: &History,
) -> Result<Vec<&'static str>, Difference> {
    let Call::Publish { graph, room, .. } = made.call else { return Ok(Vec::new()) };
    let answer = &made.answers[0];
    if answer.code != 0 && !answer.is_unwritten() {
        let what = format!("refused {} and changed the buffer or the report", answer.code);
        return Err(Difference::new(Breach::Kept, what));
    }
    // Where 1 is due was asked before, and 10 is held to the tampering.
    if [1, 10].contains(&answer.code) {
        return Ok(Vec::new());
    }
    let page = page_of(made.before, *graph);
    let due = match made.before.has_fetched(*graph) {
        false => 22,
        true if *room < page.len() => 23,
        true => 0,
    };
    let broken = |what: String| Err(Difference::new(Breach::Published, what));
    if answer.code != due {
        return broken(format!("{}, where {due} is due: a page of {} bytes", answer.code, page.len()));
    }
    if due != 0 {
        return Ok(Vec::new());
    }
    match answer.published() {
        Some((published, _)) if published != page => {
            let length = published.len();
            broken(format!("a page of {length} bytes that is not the graph's, of {}", page.len()))
        }
        Some((_, rest)) if rest.iter().any(|byte| *byte != UNWRITTEN) => {
            Err(Difference::new(Breach::Rest, "bytes after the page were changed".to_string()))
        }
        Some(_) => laws(made, *graph, &page, engines, (!tampered && !history.tampered).then_some(history)),
        None => broken("a report that tells no length within the buffer".to_string()),
    }
}

/// Holds the page to the laws; the history is that of a station that nobody tampered with.
fn laws(
    made: &Made,
    graph: u64,
    page: &[u8],
    engines: [&dyn Engine; 2],
    history: Option<&History>,
) -> Result<Vec<&'static str>, Difference> {
    let mut laws = Vec::new();
    if let Some(filled) = history.and_then(|history| history.filled.get(&graph)) {
        if page.len() > *filled {
            let what = format!("{} bytes of a graph that a page of {filled} filled", page.len());
            return Err(Difference::new(Breach::Fits, what));
        }
        laws.push(if page.len() == *filled { "as many bytes as its page" } else { "fewer bytes than its page" });
    }
    for engine in engines {
        let broken = |breach, what: String| Err(Difference::new(breach, format!("{}: {what}", engine.name())));
        if let Some(what) = taken_in(made.before, graph, page, engine, history.is_some()) {
            return broken(Breach::TakenIn, what);
        }
        if page.len() <= PAGE_LIMIT {
            if let Some(what) = elsewhere(made.before, graph, page, engine) {
                return broken(Breach::Alike, what);
            }
        }
    }
    let taken = ["taken in again", "the same elsewhere"];
    laws.extend_from_slice(if page.len() <= PAGE_LIMIT { &taken } else { &["too long to be taken in"] });
    Ok(laws)
}

/// What does not hold where the page is taken in at once for the same graph, by good ranks. Where nobody tampered with the station, all of
/// the saved run stays too.
fn taken_in(before: &Station, graph: u64, page: &[u8], engine: &dyn Engine, whole: bool) -> Option<String> {
    let mut station = Station { ranks: BUILT_IN.to_vec(), ..before.clone() };
    let answer = station.call(engine, &Call::page(graph as usize, page.to_vec()));
    if page.len() > PAGE_LIMIT {
        return (answer.code != 13).then(|| format!("{} for a page of {} bytes", answer.code, page.len()));
    }
    if answer.paged() != Some(PageReport { skipped: 0 }) {
        return Some(format!("taken in, {} {:x?}", answer.code, answer.report));
    }
    if [&station.term_table, &station.quad_table] != [&before.term_table, &before.quad_table] {
        return station.first_difference(before);
    }
    let told = |station: &Station| (station.number(QUADS), station.fetched());
    if told(&station) != told(before) || whole && station.saved != before.saved {
        return Some("taken in, the saved run is another".to_string());
    }
    let again = station.call(engine, &Call::publish(graph as usize, page.len()));
    (again.published() != Some((page, &[]))).then(|| "published again, the page is another".to_string())
}

/// What does not hold on another station with the same triples of the graph: its card lists every second one of the page's terms, the last
/// first, and the graph; its schema has the same entries, the last first; and the page's records are taken in from the last on.
fn elsewhere(before: &Station, graph: u64, page: &[u8], engine: &dyn Engine) -> Option<String> {
    let slot = before.term_table.get(SLOT_WIDTH * graph as usize..)?;
    let own = slot.get(..URI_WIDTH)?.to_vec();
    let mut terms: Vec<Vec<u8>> = Vec::new();
    for record in records(page).collect::<Vec<_>>().into_iter().rev() {
        let subject = [&[URI], &record[1..PROPERTY_OFFSET]].concat();
        let object = [&[record[0] - PAGE], &record[OBJECT_OFFSET..]].concat();
        for term in [object, subject] {
            if !terms.contains(&term) {
                terms.push(term);
            }
        }
    }
    let mut listed: Vec<Vec<u8>> = terms.into_iter().filter(|term| *term != own).step_by(2).collect();
    let number = listed.len();
    listed.push(own);
    let mut schema = entries(&before.card.schema);
    schema.reverse();
    let card = Card { terms: listed.concat(), schema: schema.concat(), script: success() };
    let mut station = Station::new(card, UNWRITTEN);
    let turned: Vec<&[u8]> = records(page).collect::<Vec<_>>().into_iter().rev().collect();
    let calls = [Call::Load, Call::page(number, turned.concat()), Call::publish(number, page.len())];
    let [loaded, taken, published] = calls.map(|call| station.call(engine, &call));
    if [loaded.code, taken.code, published.code] != [0; 3] {
        let codes = [loaded, taken, published].map(|answer| answer.code);
        return Some(format!("another station with these triples answers {codes:?}"));
    }
    (published.published() != Some((page, &[]))).then(|| "another station publishes other bytes".to_string())
}
