//! Shrinking: a case that shows a difference is cut down, piece by piece, while it still shows one of the same sort.

mod input;
pub mod tree;

pub use input::shrink_input;

use crate::call::Call;
use crate::records::{self, numbered};
use crate::replay::{Asked, Move, Replay, Tampering};
use std::collections::BTreeSet;
use std::time::{Duration, Instant};
use tree::Node;
use willetcoffer::page;
use willetcoffer::ranks::BUILT_IN;
use willetcoffer::Card;

/// How long a case is cut down.
#[derive(Clone, Copy, Debug)]
pub struct Patience {
    /// Tries, at most.
    pub tries: usize,
    /// Time, at most.
    pub time: Duration,
}

impl Default for Patience {
    fn default() -> Patience {
        Patience { tries: 5_000, time: Duration::from_secs(20) }
    }
}

/// A case being cut down.
struct Shrink<'a> {
    best: Replay,
    fails: &'a mut dyn FnMut(&Replay) -> bool,
    left: usize,
    end: Instant,
}

/// A smaller case that still fails; the case itself where nothing can be cut.
pub fn shrink(replay: Replay, patience: Patience, fails: &mut dyn FnMut(&Replay) -> bool) -> Replay {
    let end = Instant::now() + patience.time;
    let mut shrink = Shrink { best: replay, fails, left: patience.tries, end };
    loop {
        let before = shrink.best.clone();
        shrink.moves();
        shrink.asked();
        shrink.ranks();
        shrink.calls();
        shrink.shared_records();
        shrink.tampering();
        for place in 0..shrink.cards() {
            shrink.card(place);
        }
        if shrink.best == before || shrink.is_over() {
            return shrink.best;
        }
    }
}

/// Leaves out pieces of a list while the rest fails: first large runs of them, then smaller ones, each from the end.
fn leave_out<T: Clone>(mut list: Vec<T>, mut fails: impl FnMut(&[T]) -> bool) {
    let mut size = list.len();
    while size > 0 {
        let mut end = list.len();
        while end > 0 {
            let start = end.saturating_sub(size);
            let rest = [&list[..start], &list[end..]].concat();
            if fails(&rest) {
                list = rest;
            }
            end = start;
        }
        size /= 2;
    }
}

/// The card at this place: the station's, then those that a tampering puts in.
fn card_at(replay: &mut Replay, place: usize) -> Option<&mut Card> {
    let others = replay.moves.iter_mut().filter_map(|m| m.tampering.as_mut()?.card.as_mut());
    std::iter::once(&mut replay.station.card).chain(others).nth(place)
}

impl Shrink<'_> {
    fn is_over(&self) -> bool {
        self.left == 0 || Instant::now() > self.end
    }

    /// Takes the change if the case still fails with it.
    fn attempt(&mut self, change: impl FnOnce(&mut Replay)) -> bool {
        let mut next = self.best.clone();
        change(&mut next);
        if self.is_over() || next == self.best {
            return false;
        }
        self.left -= 1;
        let fails = (self.fails)(&next);
        if fails {
            self.best = next;
        }
        fails
    }

    /// Leaves out pieces of a list.
    fn pieces<T: Clone>(&mut self, list: Vec<T>, put: &dyn Fn(&mut Replay, &[T])) {
        leave_out(list, |rest| self.attempt(|replay| put(replay, rest)));
    }

    /// Fewer moves after the first, which is the load.
    fn moves(&mut self) {
        let after = self.best.moves.iter().skip(1).cloned().collect();
        self.pieces(after, &|replay, rest: &[Move]| {
            replay.moves.truncate(1);
            replay.moves.extend_from_slice(rest);
        });
    }

    /// Fewer tuples, no tampering for them, the whole input, another now.
    fn asked(&mut self) {
        let Some(Asked { tuples, .. }) = self.best.asked.clone() else { return };
        self.pieces(tuples, &|replay, rest| with_asked(replay, |asked| asked.tuples = rest.to_vec()));
        self.attempt(|replay| with_asked(replay, |asked| asked.tampering = None));
        self.attempt(|replay| with_asked(replay, |asked| asked.left = None));
        self.attempt(|replay| with_asked(replay, |asked| asked.now = 0));
    }

    /// The built-in ranks, or else fewer places that differ from them; the same for all that are lent the same.
    fn ranks(&mut self) {
        let mut lists: Vec<Vec<u8>> = self.best.moves.iter().map(|m| m.ranks.clone()).collect();
        lists.extend(self.best.asked.iter().map(|asked| asked.ranks.clone()));
        lists.sort_unstable();
        lists.dedup();
        if self.attempt(|replay| lists.iter().for_each(|list| with_ranks(replay, list, &BUILT_IN))) {
            return;
        }
        for mut list in lists {
            if self.attempt(|replay| with_ranks(replay, &list, &BUILT_IN)) || list.len() != BUILT_IN.len() {
                continue;
            }
            for (place, built_in) in BUILT_IN.iter().enumerate() {
                let mut nearer = list.clone();
                match list.iter().position(|rank| rank == built_in) {
                    Some(other) => nearer.swap(place, other),
                    None => nearer[place] = *built_in,
                }
                if self.attempt(|replay| with_ranks(replay, &list, &nearer)) {
                    list = nearer;
                }
            }
        }
    }

    /// Fewer steps, another now, a lower graph, fewer records of a page.
    fn calls(&mut self) {
        for place in 0..self.best.moves.len() {
            match self.best.moves[place].call.clone() {
                Call::Load | Call::Publish { .. } | Call::Total { .. } | Call::Suggest { .. } => {}
                Call::Run { budget: old, .. } => {
                    let smaller = [0, 1, 2, old / 2, old.saturating_sub(1)];
                    for less in smaller.into_iter().filter(|less| *less < old) {
                        let change = |replay: &mut Replay| {
                            if let Call::Run { budget, .. } = &mut replay.moves[place].call {
                                *budget = less;
                            }
                        };
                        if self.attempt(change) {
                            break;
                        }
                    }
                    self.attempt(|replay| {
                        if let Call::Run { now, .. } = &mut replay.moves[place].call {
                            *now = 0;
                        }
                    });
                }
                Call::Page { graph: old, page, .. } => {
                    for lower in (0..old).take(4) {
                        let change = |replay: &mut Replay| {
                            if let Call::Page { graph, .. } = &mut replay.moves[place].call {
                                *graph = lower;
                            }
                        };
                        if self.attempt(change) {
                            break;
                        }
                    }
                    let all: Vec<Vec<u8>> = page::records(&page).map(<[u8]>::to_vec).collect();
                    self.pieces(all, &|replay, rest: &[Vec<u8>]| {
                        if let Call::Page { page, .. } = &mut replay.moves[place].call {
                            *page = rest.concat();
                        }
                    });
                }
            }
        }
    }

    /// Fewer records, each left out of all pages at once, as what shows may be that two pages have the same ones.
    fn shared_records(&mut self) {
        let pages = self.best.moves.iter().filter_map(|m| match &m.call {
            Call::Page { page, .. } => Some(page),
            _ => None,
        });
        let all: BTreeSet<Vec<u8>> = pages.flat_map(|page| page::records(page)).map(<[u8]>::to_vec).collect();
        self.pieces(all.into_iter().collect(), &|replay, rest: &[Vec<u8>]| {
            for m in &mut replay.moves {
                if let Call::Page { page, .. } = &mut m.call {
                    let kept: Vec<&[u8]> =
                        page::records(page).filter(|record| rest.iter().any(|r| r == record)).collect();
                    *page = kept.concat();
                }
            }
        });
    }

    /// No tampering, the old card, fewer changed bytes.
    fn tampering(&mut self) {
        for place in 0..self.best.moves.len() {
            if self.attempt(|replay| replay.moves[place].tampering = None) {
                continue;
            }
            let Some(Tampering { changes, .. }) = self.best.moves[place].tampering.clone() else { continue };
            let changes_alone: [fn(&mut Tampering); 2] =
                [|tampering| tampering.card = None, |tampering| tampering.length = None];
            for change in changes_alone {
                self.attempt(|replay| replay.moves[place].tampering.as_mut().into_iter().for_each(change));
            }
            self.pieces(changes, &|replay, rest| {
                if let Some(tampering) = &mut replay.moves[place].tampering {
                    tampering.changes = rest.to_vec();
                }
            });
        }
    }

    fn cards(&self) -> usize {
        1 + self.best.moves.iter().filter(|m| m.tampering.as_ref().is_some_and(|t| t.card.is_some())).count()
    }

    /// A smaller script, fewer terms, fewer schema entries.
    fn card(&mut self, place: usize) {
        let Some(card) = card_at(&mut self.best, place).cloned() else { return };
        match Node::read(&card.script) {
            Some(root) => self.script(place, root),
            None => self.pieces(card.script, &|replay, rest| {
                if let Some(card) = card_at(replay, place) {
                    card.script = rest.to_vec();
                }
            }),
        }
        self.pieces(records::terms(&card.terms), &|replay, rest: &[Vec<u8>]| {
            with_card(replay, place, |card| card.terms = rest.concat());
        });
        self.pieces(records::entries(&card.schema), &|replay, rest: &[Vec<u8>]| {
            with_card(replay, place, |card| card.schema = rest.concat());
        });
    }

    /// Smaller records in the place of larger ones, from the root on.
    fn script(&mut self, place: usize, root: Node) {
        let mut root = root;
        let mut at = 0;
        while let Some(node) = root.at(at).cloned() {
            let cut = node.smaller().into_iter().find_map(|smaller| {
                let mut next = root.clone();
                *next.at(at)? = smaller;
                let mut tidy = next.clone();
                tidy.tidy();
                [tidy, next].into_iter().find(|next| self.put_script(place, next.bytes()))
            });
            match cut {
                Some(next) => root = next,
                None => at += 1,
            }
        }
    }

    fn put_script(&mut self, place: usize, script: Vec<u8>) -> bool {
        self.attempt(|replay| {
            if let Some(card) = card_at(replay, place) {
                card.script = script;
            }
        })
    }
}

/// Lends these ranks in the place of those.
fn with_ranks(replay: &mut Replay, old: &[u8], new: &[u8]) {
    let lent =
        replay.moves.iter_mut().map(|m| &mut m.ranks).chain(replay.asked.iter_mut().map(|asked| &mut asked.ranks));
    lent.filter(|ranks| ranks[..] == *old).for_each(|ranks| *ranks = new.to_vec());
}

fn with_asked(replay: &mut Replay, change: impl FnOnce(&mut Asked)) {
    if let Some(asked) = &mut replay.asked {
        change(asked);
    }
}

/// Changes terms or schema of a card; where that gives terms other numbers, constants, page calls and tuples follow.
fn with_card(replay: &mut Replay, place: usize, change: impl FnOnce(&mut Card)) {
    let Some(card) = card_at(replay, place) else { return };
    let old = numbered(card);
    change(card);
    let new = numbered(card);
    let renumbered = |number: usize| {
        let term = old.get(number)?;
        new.iter().position(|other| other == term)
    };
    if let Some(mut root) = Node::read(&card.script) {
        root.renumber(&|number| renumbered(usize::from(number)).map_or(number, |new| new as u16));
        card.script = root.bytes();
    }
    for m in &mut replay.moves {
        if let Call::Page { graph, .. } | Call::Publish { graph, .. } = &mut m.call {
            let new = usize::try_from(*graph).ok().and_then(renumbered);
            *graph = new.map_or(*graph, |new| new as u64);
        }
    }
    // Terms that pages brought are numbered after the card's.
    let moved = |number: usize| match number.checked_sub(old.len()) {
        Some(after) => Some(new.len() + after),
        None => renumbered(number),
    };
    with_asked(replay, |asked| {
        for number in asked.tuples.iter_mut().flatten() {
            *number = moved(usize::from(*number)).map_or(*number, |new| new as u16);
        }
    });
}
