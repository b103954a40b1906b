//! Saved runs and tables tampered with: most of it unsound, some of it sound though no run reaches it.

mod craft;
mod order;

use crate::call::Station;
use crate::draw::damage::damage;
use crate::draw::pool::{datatype, term, Pool};
use crate::draw::rng::Rng;
use crate::draw::scripts::Writer;
pub(super) use craft::loaded;
use willetcoffer::limits::{
    BINDINGS_OFFSET, BOUND_OFFSET, DEPTH_LIMIT, FETCHED_OFFSET, GRAPH_LIMIT, ITEMS_OFFSET, ITEM_WIDTH, PAIR_LIMIT,
    QUAD_LIMIT, QUAD_WIDTH, SLOT_WIDTH, TERM_LIMIT, TYPES_OFFSET, VARIABLE_LIMIT,
};
use willetcoffer::saved::{GRAPHS, HEIGHT, ITEM_MARK, ITEM_TUPLE, ITEM_ZERO, QUADS};

/// Changes inputs, tables or saved run of a loaded station; gives the name of the change.
pub fn tamper(rng: &mut Rng, pool: &Pool, station: &mut Station) -> &'static str {
    // One quad alone has no other order.
    let order = if station.number(QUADS) < 2 { 0 } else { 30 };
    match rng.weighted(&[30, 12, 14, 8, 12, 3, order]) {
        0 => saved_run(rng, station),
        1 => quads(rng, station),
        2 => terms(rng, pool, station),
        3 => inputs(rng, pool, station),
        4 => craft::craft(rng, station),
        5 => craft::crowd(rng, station),
        _ => order::order(rng, station),
    }
}

/// A number that is often near one that matters.
pub(super) fn number(rng: &mut Rng, station: &Station) -> usize {
    match rng.below(5) {
        0 => station.used() + rng.below(2),
        1 => rng.one(&[600, TERM_LIMIT - 1, TERM_LIMIT, 65_535]),
        _ => rng.below(station.used().max(1)),
    }
}

fn saved_run(rng: &mut Rng, station: &mut Station) -> &'static str {
    let height = station.number(HEIGHT).min(DEPTH_LIMIT);
    let item = ITEMS_OFFSET + ITEM_WIDTH * rng.below(height);
    let variable = rng.below(VARIABLE_LIMIT);
    match rng.below(16) {
        0 => {
            let at = rng.below(station.saved.len());
            station.saved[at] ^= 1 << rng.below(8);
            "saved: a bit"
        }
        1 => {
            let counts = [(HEIGHT, DEPTH_LIMIT), (QUADS, QUAD_LIMIT), (GRAPHS, GRAPH_LIMIT)];
            let (at, limit) = rng.one(&counts);
            let near = (station.number(at) + rng.below(3)).saturating_sub(1);
            station.set(at, if rng.one_in(3) { limit + rng.below(2) } else { near });
            "saved: a count"
        }
        2 => {
            station.saved[TYPES_OFFSET + variable] = rng.below(15) as u8;
            "saved: a type"
        }
        3 => {
            station.saved[BOUND_OFFSET + variable] = rng.below(3) as u8;
            "saved: a bound mark"
        }
        4 | 5 => binding(rng, station, variable),
        6 => {
            let at = FETCHED_OFFSET + 2 * rng.below(station.number(GRAPHS).min(GRAPH_LIMIT));
            let other = station.number(FETCHED_OFFSET);
            let number = if rng.one_in(3) { other } else { number(rng, station) };
            station.set(at, number);
            "saved: a fetched graph"
        }
        change @ 7..=12 => stack(rng, station, item, change),
        _ => {
            nonsense(rng, station);
            "saved: what means nothing"
        }
    }
}

/// Another term for a bound variable, or none; for this one where no variable is bound.
fn binding(rng: &mut Rng, station: &mut Station, variable: usize) -> &'static str {
    let marked: Vec<usize> = (0..VARIABLE_LIMIT).filter(|v| station.saved[BOUND_OFFSET + v] == 1).collect();
    let variable = rng.pick(&marked).copied().unwrap_or(variable);
    if rng.one_in(3) {
        station.saved[BOUND_OFFSET + variable] = 0;
        return "saved: a variable unbound";
    }
    let number = number(rng, station);
    station.set(BINDINGS_OFFSET + 2 * variable, number);
    "saved: a variable's term"
}

/// A change of the stack, mostly of this item.
fn stack(rng: &mut Rng, station: &mut Station, item: usize, change: usize) -> &'static str {
    match change {
        7 => {
            let offset = rng.below(station.card.script.len() + 2);
            station.set(item, offset);
            "saved: an item's offset"
        }
        8 => {
            station.saved[item + ITEM_MARK] = rng.below(3) as u8;
            "saved: a tuple mark"
        }
        9 => {
            station.saved[item + ITEM_ZERO] = rng.below(2) as u8 * 7;
            "saved: an item's fourth byte"
        }
        10 | 11 => {
            // The item of an each block, if there is one.
            let each = |item: &usize| {
                let head = station.card.script.get(station.number(*item)..);
                head.is_some_and(|head| head.starts_with(&[0x73, 1]))
            };
            let height = station.number(HEIGHT).min(DEPTH_LIMIT);
            let items: Vec<usize> = (0..height).map(|i| ITEMS_OFFSET + ITEM_WIDTH * i).filter(each).collect();
            let item = rng.pick(&items).copied().unwrap_or(item);
            station.saved[item + ITEM_MARK] = 1;
            let number = number(rng, station);
            station.set(item + ITEM_TUPLE + 2 * rng.weighted(&[4, 3, 2, 1]), number);
            "saved: a last tuple"
        }
        _ => {
            // Another item on top, or the top one again.
            let (height, below) = (station.number(HEIGHT), station.number(ITEMS_OFFSET));
            station.set(HEIGHT, height + 1);
            station.set(ITEMS_OFFSET + ITEM_WIDTH * height.min(DEPTH_LIMIT - 1), below);
            "saved: one item more"
        }
    }
}

/// Bytes where nothing is asked: above the height, past the fetched graphs, numbers of unbound variables.
fn nonsense(rng: &mut Rng, station: &mut Station) {
    let [height, graphs] = [station.number(HEIGHT).min(DEPTH_LIMIT), station.number(GRAPHS).min(GRAPH_LIMIT)];
    let saved = &mut station.saved;
    for byte in &mut saved[ITEMS_OFFSET + ITEM_WIDTH * height..] {
        *byte = rng.next() as u8;
    }
    for byte in &mut saved[FETCHED_OFFSET + 2 * graphs..ITEMS_OFFSET] {
        *byte = rng.next() as u8;
    }
    for variable in 0..VARIABLE_LIMIT {
        if saved[BOUND_OFFSET + variable] == 0 {
            saved[BINDINGS_OFFSET + 2 * variable] = rng.next() as u8;
        }
    }
    for item in 0..height {
        let at = ITEMS_OFFSET + ITEM_WIDTH * item;
        if saved[at + ITEM_MARK] == 0 {
            saved[at + ITEM_TUPLE + rng.below(2 * PAIR_LIMIT)] = rng.next() as u8;
        }
    }
}

fn quads(rng: &mut Rng, station: &mut Station) -> &'static str {
    let count = station.number(QUADS).min(QUAD_LIMIT);
    let number = number(rng, station) as u16;
    let first = QUAD_WIDTH * rng.below(count);
    let table = &mut station.quad_table;
    match rng.below(4) {
        0 | 1 => {
            let at = first + 2 * rng.below(4);
            table[at..at + 2].copy_from_slice(&number.to_le_bytes());
            "quads: a number"
        }
        2 => {
            let last = table.len() - 1;
            let at = rng.within((QUAD_WIDTH * count).min(last), last);
            table[at] = rng.next() as u8;
            "quads: a free place"
        }
        _ => {
            let end = (QUAD_WIDTH * count).min(table.len() - QUAD_WIDTH);
            table.copy_within(first..first + QUAD_WIDTH, end);
            station.set(QUADS, count + 1);
            "quads: one more"
        }
    }
}

fn terms(rng: &mut Rng, pool: &Pool, station: &mut Station) -> &'static str {
    let used = station.used();
    let slot = SLOT_WIDTH * rng.below(used);
    let free = SLOT_WIDTH * used.min(TERM_LIMIT - 1);
    let datatype = datatype(rng);
    let n = rng.below(900);
    let new = term(rng, pool.texts, datatype, n).slot();
    let table = &mut station.term_table;
    match rng.below(7) {
        0 => {
            table[slot + rng.below(SLOT_WIDTH)] ^= 1 << rng.below(8);
            "terms: a bit"
        }
        1 => {
            table.copy_within(slot..slot + SLOT_WIDTH, free);
            "terms: one twice"
        }
        2 => {
            let at = rng.within(free, table.len() - 1);
            table[at] = rng.next() as u8;
            "terms: a free place"
        }
        3 => {
            let last = SLOT_WIDTH * used.saturating_sub(1);
            table[last..last + SLOT_WIDTH].fill(0);
            "terms: one fewer"
        }
        4 => {
            table[slot..slot + SLOT_WIDTH].copy_from_slice(&new);
            "terms: another"
        }
        _ => {
            table[free..free + SLOT_WIDTH].copy_from_slice(&new);
            "terms: one more"
        }
    }
}

fn inputs(rng: &mut Rng, pool: &Pool, station: &mut Station) -> &'static str {
    match rng.below(5) {
        0 => {
            damage(rng, &mut station.card.terms);
            "inputs: terms"
        }
        1 => {
            damage(rng, &mut station.card.schema);
            "inputs: schema"
        }
        2 => {
            damage(rng, &mut station.card.script);
            "inputs: script"
        }
        3 => {
            station.card.script = Writer::new(rng, pool, 200).script(0);
            "inputs: another script"
        }
        _ => {
            // A term added at the end is numbered before the schema URIs.
            let datatype = datatype(rng);
            let n = rng.below(900);
            station.card.terms.extend(term(rng, pool.texts, datatype, n).record());
            "inputs: a term more"
        }
    }
}
