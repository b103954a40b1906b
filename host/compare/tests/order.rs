//! One order for quads: engines that keep another are found, and where two of them are wrong alike, by the law about stations that
//! are filled alike, as far as it goes.

use compare::call::engine::{fast, Second, Ways};
use compare::call::{Call, Engine, Station};
use compare::judge::{Breach, Stores};
use compare::replay::Replay;
use compare::shrink::{shrink, Patience};
use second::eval::Quad;
use second::order::{self, Order};
use second::seek::Seek;
use second::write::{success, uri};
use willetcoffer::page::records;
use willetcoffer::Card;
use wrong::differing;

mod wrong;

const SEED: u64 = 10;

/// The first breach in so many cases.
fn breach(engines: [&dyn Engine; 2], cases: u64) -> Option<Breach> {
    wrong::breach(SEED, cases, engines)
}

fn ordering(order: Order) -> Second<Seek> {
    fast().by(Ways { order, ..Ways::FAST })
}

/// Found against the right one.
fn found(order: Order) -> Option<Breach> {
    breach([&fast(), &ordering(order)], 2000)
}

/// Found where both keep this order.
fn found_alike(order: Order) -> Option<Breach> {
    breach([&ordering(order), &ordering(order)], 2000)
}

fn distinct(quads: &[Quad]) -> bool {
    (1..quads.len()).all(|place| !quads[..place].contains(&quads[place]))
}

/// As the page gives them, after those of the other graphs.
fn appended(quads: &mut Vec<Quad>, page: Vec<Quad>) {
    for quad in page {
        if !quads.contains(&quad) {
            quads.push(quad);
        }
    }
}

/// Sorted by what each quad is made into, and each once.
fn sorted<K: Ord>(quads: &mut Vec<Quad>, page: Vec<Quad>, key: fn(&Quad) -> K) {
    quads.extend(page);
    quads.sort_by_key(key);
    quads.dedup();
}

fn rises<K: Ord>(quads: &[Quad], key: fn(&Quad) -> K) -> bool {
    quads.windows(2).all(|pair| key(&pair[0]) < key(&pair[1]))
}

#[test]
fn the_right_order_passes() {
    for order in [order::FAST, order::PLAIN] {
        assert_eq!((found(order), found_alike(order)), (None, None));
    }
}

/// Stores in another order are taken for sound.
#[test]
fn what_does_not_look_is_found() {
    let swapped_accepted = Order { stands: distinct, ..order::FAST };
    let twice_accepted = Order { stands: |quads| quads.is_sorted(), ..order::FAST };
    let graphs_alone =
        Order { stands: |quads| distinct(quads) && quads.is_sorted_by_key(|quad| quad[0]), ..order::FAST };
    for order in [swapped_accepted, twice_accepted, graphs_alone] {
        assert_eq!(found(order), Some(Breach::Answers));
        assert_eq!(found_alike(order), Some(Breach::Stores));
    }
}

/// A page's quads are not put where they belong.
#[test]
fn what_appends_is_found() {
    fn appended_in_order(quads: &mut Vec<Quad>, mut page: Vec<Quad>) {
        page.sort_unstable();
        appended(quads, page);
    }
    for put in [appended, appended_in_order] {
        assert_eq!(found(Order { put, ..order::FAST }), Some(Breach::Tables));
        // Also where what was published is taken in, which is to leave the quads as they stand.
        assert!(matches!(found_alike(Order { put, stands: distinct }), Some(Breach::Stores | Breach::TakenIn)));
    }
}

/// A quad that a page gives twice stands there twice.
#[test]
fn what_keeps_equal_quads_is_found() {
    fn kept(quads: &mut Vec<Quad>, page: Vec<Quad>) {
        quads.extend(page);
        quads.sort_unstable();
    }
    assert_eq!(found(Order { put: kept, ..order::FAST }), Some(Breach::Tables));
    // The graph's quads are the page's triples, each once.
    assert_eq!(found_alike(Order { put: kept, stands: |quads| quads.is_sorted() }), Some(Breach::Whole));
}

/// There is one order, and another one: only the comparison tells.
#[test]
fn another_order_is_found() {
    fn subject_first(quad: &Quad) -> Quad {
        let [graph, subject, property, object] = *quad;
        [subject, graph, property, object]
    }
    fn object_before_property(quad: &Quad) -> Quad {
        let [graph, subject, property, object] = *quad;
        [graph, subject, object, property]
    }
    fn as_bytes(quad: &Quad) -> [[u8; 2]; 4] {
        quad.map(u16::to_le_bytes)
    }
    let others = [
        Order { stands: |q| rises(q, subject_first), put: |q, page| sorted(q, page, subject_first) },
        Order { stands: |q| rises(q, object_before_property), put: |q, page| sorted(q, page, object_before_property) },
        Order { stands: |q| rises(q, as_bytes), put: |q, page| sorted(q, page, as_bytes) },
        Order { stands: |q| rises(q, |q| !order::packed(q)), put: |q, page| sorted(q, page, |q| !order::packed(q)) },
    ];
    for (place, order) in others.into_iter().enumerate() {
        // A store in their order is sound for them, so what differs first may be an answer or a table.
        assert!(matches!(found(order), Some(Breach::Tables | Breach::Answers)), "{place}");
    }
}

/// The cases that two engines of this order break alike, each made again: what the law remembers goes with the moves that a case keeps.
fn made_again(order: Order) -> Vec<Replay> {
    let wrong = ordering(order);
    let engines: [&dyn Engine; 2] = [&wrong, &wrong];
    let mut broken = Vec::new();
    for (kept, difference) in differing(SEED, 1000, engines) {
        assert_eq!(kept.play(engines).map(|(_, shown)| shown.breach), Some(difference.breach), "{}", difference.what);
        broken.push(kept);
    }
    broken
}

/// The records of a case's pages.
fn page_records(replay: &Replay) -> usize {
    let pages =
        replay.moves.iter().filter_map(|m| if let Call::Page { page, .. } = &m.call { Some(page) } else { None });
    pages.map(|page| records(page).count()).sum()
}

#[test]
fn cases_that_break_the_law_are_made_again_and_cut_down() {
    assert!(made_again(Order { stands: distinct, ..order::FAST }).len() > 20);
    let appends = Order { stands: distinct, put: appended };
    let broken = made_again(appends);
    assert!(broken.len() > 20);
    let wrong = ordering(appends);
    let breaks = |replay: &Replay| {
        let shown = replay.play([&wrong, &wrong]);
        shown.is_some_and(|(_, difference)| difference.breach == Breach::Stores)
    };
    let first = broken.into_iter().find(|replay| breaks(replay)).expect("a case that breaks this law");
    let small = shrink(first, Patience::default(), &mut |replay| breaks(replay));
    // The load, and two pages of the same two records.
    assert!(breaks(&small));
    assert_eq!((small.moves.len(), page_records(&small)), (3, 4));
}

/// A loaded station of three URIs with these quads; the law asks for no more of them.
fn station(quads: &[Quad]) -> Station {
    let uris = ["u:a", "u:b", "u:c"].map(uri);
    let card = Card { terms: second::write::terms(&uris), schema: Vec::new(), script: success() };
    let mut station = Station::new(card, 0);
    assert_eq!(station.call(&fast(), &Call::Load).code, 0);
    station.set_quads(quads);
    station
}

#[test]
fn the_law() {
    let page = |byte| Call::page(0, vec![byte]);
    let mut stores = Stores::default();
    let mut meet = |call: &Call, station: &Station| stores.meet(call, station).map_err(|difference| difference.breach);
    let [a, b, c] = [[0, 1, 2, 0], [0, 1, 2, 1], [1, 0, 2, 0]];
    assert_eq!(meet(&page(1), &station(&[a, b])), Ok(None));
    assert_eq!(meet(&page(2), &station(&[a, b, c])), Ok(None));
    // The same terms and quads again, by the call that left them first, by another page, by a run.
    assert_eq!(meet(&page(1), &station(&[a, b])), Ok(Some("by the same page")));
    assert_eq!(meet(&page(3), &station(&[a, b])), Ok(Some("by another page")));
    assert_eq!(meet(&Call::run(0, 0), &station(&[a, b])), Ok(None));
    // In another order, or one of them twice.
    for other in [&[b, a][..], &[a, a, b], &[a, c, b]] {
        assert_eq!(meet(&page(1), &station(other)), Err(Breach::Stores));
    }
    // A byte that is none of its quads or terms.
    let mut stray = station(&[a, b]);
    *stray.quad_table.last_mut().expect("a table") = 1;
    assert_eq!(meet(&page(1), &stray), Err(Breach::Stores));
    let mut stray = station(&[a, b]);
    *stray.term_table.last_mut().expect("a table") = 1;
    assert_eq!(meet(&page(1), &stray), Err(Breach::Stores));
    // With other terms the law says nothing of the order.
    let mut more = station(&[b, a]);
    let slot = uri("u:d").slot();
    more.term_table[3 * slot.len()..4 * slot.len()].copy_from_slice(&slot);
    assert_eq!(meet(&page(1), &more), Ok(None));
    assert_eq!(stores.len(), 3);
    stores.truncate(0);
    assert!(stores.is_empty());
}
