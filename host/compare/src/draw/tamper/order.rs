//! Stores of two quads or more: in another order, with a quad twice, and as a contrast others that stand in order.

use crate::call::Station;
use crate::draw::rng::Rng;
use willetcoffer::limits::{QUAD_LIMIT, SLOT_WIDTH};

/// Changes a store that stands in order; gives the name of the change. With the first three it does so no more.
pub(super) fn order(rng: &mut Rng, station: &mut Station) -> &'static str {
    let mut quads = station.quads();
    let low = rng.below(quads.len() - 1);
    let high = rng.within(low + 1, quads.len() - 1);
    let label = match rng.weighted(&[3, 3, 3, 1, 2]) {
        0 => {
            quads.swap(low, high);
            "order: two swapped"
        }
        1 => {
            let (from, to) = if rng.one_in(2) { (low, high) } else { (high, low) };
            let quad = quads.remove(from);
            quads.insert(to, quad);
            "order: one moved"
        }
        2 => {
            quads.insert(low, quads[low]);
            quads.truncate(QUAD_LIMIT);
            "order: one twice"
        }
        3 => {
            quads.remove(low);
            "order: one taken out"
        }
        _ => {
            if let Some(subject) = rng.pick(&uris(station)) {
                quads[low][1] = *subject;
            }
            quads.sort_unstable();
            "order: another, in its place"
        }
    };
    station.set_quads(&quads);
    label
}

/// The numbers of the URIs in use.
fn uris(station: &Station) -> Vec<u16> {
    let slots = station.term_table.chunks(SLOT_WIDTH).zip(0..);
    slots.filter(|(slot, _)| slot[0] == 0x11).map(|(_, number)| number).collect()
}
