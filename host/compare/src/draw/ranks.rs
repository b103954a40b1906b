//! Ranks: the built-in ones, other good lists, and lists that are none.

use super::rng::Rng;
use willetcoffer::limits::RANKS_WIDTH;
use willetcoffer::ranks::BUILT_IN;

/// Ranks in which each stands once: the built-in ones, turned round, by byte, mixed, or with two of them exchanged.
pub fn good(rng: &mut Rng) -> Vec<u8> {
    let mut ranks = BUILT_IN.to_vec();
    match rng.weighted(&[3, 3, 2, 7, 2]) {
        0 => {}
        1 => turn(&mut ranks),
        2 => ranks = (0..RANKS_WIDTH as u8).collect(),
        3 => rng.shuffle(&mut ranks),
        _ => {
            // Of two bytes that words are made of.
            let [a, b] = [0; 2].map(|_| place(rng));
            ranks.swap(a, b);
        }
    }
    ranks
}

/// Turns ranks round: what came last comes first. Each stands once as before, or does not as before.
pub fn turn(ranks: &mut [u8]) {
    let last = RANKS_WIDTH as u8 - 1;
    for rank in ranks.iter_mut().filter(|rank| **rank <= last) {
        *rank = last - *rank;
    }
}

/// A place of the list, often the first or the last.
fn place(rng: &mut Rng) -> usize {
    match rng.below(6) {
        0 => 0,
        1 => RANKS_WIDTH - 1,
        2 => usize::from(rng.one(b"aAbBen-") - 0x20),
        _ => rng.below(RANKS_WIDTH),
    }
}

/// Makes good ranks bad: of another length, one twice and so another missing, one of 95 or more, counted from 1, or more than one of these.
pub fn spoil(rng: &mut Rng, ranks: &mut Vec<u8>) {
    if rng.one_in(4) {
        let length = rng.one(&[0, 1, RANKS_WIDTH - 1, RANKS_WIDTH - 1, RANKS_WIDTH + 1, RANKS_WIDTH + 1, 256]);
        ranks.resize(length, rng.below(RANKS_WIDTH) as u8);
        return;
    }
    spoil_in_place(rng, ranks);
}

/// The same, 95 bytes as before.
pub fn spoil_in_place(rng: &mut Rng, ranks: &mut [u8]) {
    let at = place(rng);
    match rng.below(8) {
        0..=2 => {
            let other = (at + rng.within(1, RANKS_WIDTH - 1)) % RANKS_WIDTH;
            ranks[at] = ranks[other];
        }
        3..=4 => ranks[at] = RANKS_WIDTH as u8,
        5 => ranks[at] = rng.within(RANKS_WIDTH + 1, 255) as u8,
        // The same in its lower seven bits.
        6 => ranks[at] |= 128,
        _ => ranks.iter_mut().for_each(|rank| *rank += 1),
    }
    if rng.one_in(6) {
        ranks[place(rng)] = 255;
    }
}
