//! States drawn afresh: sound ones that no run reaches, and as many fetched graphs as there is room for.

use crate::call::Station;
use crate::draw::is_block;
use crate::draw::rng::Rng;
use second::check::{check, Loaded};
use second::scope;
use second::term::Term;
use willetcoffer::limits::{
    BINDINGS_OFFSET, BOUND_OFFSET, FETCHED_OFFSET, GRAPH_LIMIT, ITEMS_OFFSET, ITEM_WIDTH, PAIR_LIMIT, SLOT_WIDTH,
    TERM_LIMIT, VARIABLE_LIMIT,
};
use willetcoffer::saved::{GRAPHS, HEIGHT, ITEM_MARK, ITEM_TUPLE, ITEM_ZERO};

/// What a station's card loads as.
pub(in crate::draw) fn loaded(station: &Station) -> Option<Loaded> {
    let card = &station.card;
    check(second::arcs::solve, &card.terms, &card.schema, &card.script).ok()
}

/// A stack and bindings drawn afresh, mostly sound.
pub(super) fn craft(rng: &mut Rng, station: &mut Station) -> &'static str {
    let Some(loaded) = loaded(station) else {
        return "craft: nothing";
    };
    let bound = bindings(rng, station, &loaded);
    stack(rng, station, &loaded, bound);
    "craft"
}

/// Binds most variables to terms of their types; gives a bit for each bound one.
fn bindings(rng: &mut Rng, station: &mut Station, loaded: &Loaded) -> u16 {
    let used = station.used();
    let slots: Vec<_> = station.term_table.chunks(SLOT_WIDTH).take(used).map(Term::from_slot).collect();
    let has = |number: usize, t| {
        let range = match slots[number] {
            Some(Term::Uri(uri)) => loaded.schema.datatype(&uri),
            _ => None,
        };
        slots[number].is_some_and(|term| term.has_type(range, t))
    };
    let mut bound = 0u16;
    for variable in 0..VARIABLE_LIMIT {
        let Some(t) = loaded.types[variable] else { continue };
        let fits: Vec<usize> = (0..used.min(200)).filter(|n| has(*n, t)).collect();
        let number = rng.pick(&fits).copied();
        station.saved[BOUND_OFFSET + variable] = 0;
        if let (Some(number), true) = (number, rng.percent(85)) {
            station.saved[BOUND_OFFSET + variable] = 1;
            station.set(BINDINGS_OFFSET + 2 * variable, number);
            bound |= 1 << variable;
        }
    }
    bound
}

/// Puts items on the stack whose free variables are bound, each deep enough in the script.
fn stack(rng: &mut Rng, station: &mut Station, loaded: &Loaded, bound: u16) {
    let used = station.used();
    let nodes = &loaded.script.nodes;
    let mut height = 0;
    for _ in 0..rng.below(8) {
        let fits: Vec<usize> = (0..nodes.len())
            .filter(|n| nodes[*n].depth > height && scope::free(&loaded.script, *n) & !bound == 0)
            .collect();
        let Some(node) = rng.pick(&fits).map(|n| &nodes[*n]) else { break };
        let at = ITEMS_OFFSET + ITEM_WIDTH * height;
        station.set(at, usize::from(node.offset));
        let tuple = if is_block(node, true) { rng.one_in(2) } else { rng.one_in(8) };
        station.saved[at + ITEM_MARK] = u8::from(tuple);
        station.saved[at + ITEM_ZERO] = 0;
        for place in 0..PAIR_LIMIT {
            station.set(at + ITEM_TUPLE + 2 * place, rng.below(used));
        }
        height += 1;
    }
    station.set(HEIGHT, height);
}

/// As many fetched graphs as there is room for, or one or two fewer; URIs are added to the term table for it.
pub(super) fn crowd(rng: &mut Rng, station: &mut Station) -> &'static str {
    let mut used = station.used();
    let kind = |station: &Station, number: usize| station.term_table[SLOT_WIDTH * number];
    let uris = (0..used).filter(|number| kind(station, *number) == 0x11).count();
    for n in uris..GRAPH_LIMIT + 2 {
        if used < TERM_LIMIT {
            let slot = second::write::uri(&format!("crowd:{n}")).slot();
            station.term_table[SLOT_WIDTH * used..SLOT_WIDTH * (used + 1)].copy_from_slice(&slot);
            used += 1;
        }
    }
    let fetched = station.fetched();
    let mut count = fetched.len();
    let most = rng.within(GRAPH_LIMIT - 2, GRAPH_LIMIT);
    for number in (0..used).filter(|number| !fetched.contains(number)) {
        if count < most && kind(station, number) == 0x11 {
            station.set(FETCHED_OFFSET + 2 * count, number);
            count += 1;
        }
    }
    station.set(GRAPHS, count);
    "crowd"
}
