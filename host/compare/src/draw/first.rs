//! The station of a case before its load; its script: which sort it is, and the sorts that reach for a limit.

use super::damage::{block_head, damage, repeat_record};
use super::pool::Pool;
use super::rng::Rng;
use super::scripts::{graphs, Writer};
use super::wild::Wild;
use crate::call::Station;
use second::term::Term;
use second::write::{con, filter, from_named, not, once, sequence, success};
use willetcoffer::limits::SCRIPT_LIMIT;
use willetcoffer::Card;

/// The card of a case, some of its bytes damaged now and then, and lent buffers, now and then of another length; and the
/// sort of its script.
pub fn station(rng: &mut Rng, pool: &Pool) -> (Station, &'static str) {
    let (script, sort) = script(rng, pool);
    let mut card = Card { terms: pool.term_bytes(), schema: pool.schema_bytes(), script };
    match rng.weighted(&[240, 6, 6, 14, 4, 4, 8, 1]) {
        0 => {}
        1 => damage(rng, &mut card.terms),
        2 => damage(rng, &mut card.schema),
        3 => damage(rng, &mut card.script),
        4 => repeat_record(rng, &mut card.terms, |kind| Term::body_length(kind).map(|n| n + 1)),
        5 => repeat_record(rng, &mut card.schema, |_| Some(second::limits::ENTRY)),
        6 => block_head(rng, &mut card.script, pool.numbered.len()),
        _ => card.terms.extend((0..520).flat_map(|n| Term::Int(5_000 + n).record())),
    }
    let mut station = Station::new(card, 0xaa);
    if rng.one_in(100) {
        let buffer = &mut *station.buffers_mut()[rng.below(3)];
        let length = rng.one(&[0, buffer.len() - 1, buffer.len() + 1]);
        buffer.resize(length, 0xaa);
    }
    (station, sort)
}

/// A script of the case, and what sort it is.
fn script(rng: &mut Rng, pool: &Pool) -> (Vec<u8>, &'static str) {
    let (edged, undecided) = if pool.texts.are_long() { (180, 36) } else { (4, 18) };
    match rng.weighted(&[44, 18, 10, 5, 5, 17, 27, 38, edged, undecided, 4]) {
        0 => {
            let room = rng.within(20, 400);
            (Writer::new(rng, pool, room).script(0), "typed")
        }
        1 => (Writer::new(rng, pool, 1500).tangle(), "tangle"),
        2 => (Wild::new(rng, pool).script(0), "wild"),
        3 => {
            let room = rng.within(600, 1900);
            (Writer::new(rng, pool, room).long(), "long")
        }
        4 => (deep(rng, pool), "deep"),
        5 => (Writer::new(rng, pool, 200).starred(), "starred"),
        6 => (Writer::new(rng, pool, 200).overflowing(), "overflowing"),
        7 => (Writer::new(rng, pool, 200).sorted(), "sorted"),
        8 => (Writer::new(rng, pool, 200).edged(), "edged"),
        9 => (Writer::new(rng, pool, 200).undecided(), "undecided"),
        _ => (as_long_as_it_may_be(rng, pool), "longest"),
    }
}

/// A small script far below the root.
fn deep(rng: &mut Rng, pool: &Pool) -> Vec<u8> {
    let mut script = Writer::new(rng, pool, 60).script(1);
    if rng.one_in(4) {
        let cond = (0..rng.within(8, 20)).fold(vec![0x51], |cond, _| not(cond));
        script = once(&[], filter(cond), script);
    }
    for _ in 0..rng.within(10, 21) {
        script = match rng.below(3) {
            0 => sequence(script, success()),
            1 => sequence(success(), script),
            _ => match graphs(pool).first() {
                Some(graph) => from_named(con(*graph), script),
                None => script,
            },
        };
    }
    script
}

/// A script of as many bytes as it may have, one fewer or one more.
fn as_long_as_it_may_be(rng: &mut Rng, pool: &Pool) -> Vec<u8> {
    let start = Writer::new(rng, pool, 1500).script(0);
    let wanted = rng.within(SCRIPT_LIMIT - 1, SCRIPT_LIMIT + 1);
    let left = wanted.saturating_sub(start.len() + 1);
    if left < 40 {
        return start;
    }
    let even = left.is_multiple_of(2);
    let rest = if even { once(&[], filter(vec![0x51]), balanced(left - 13)) } else { balanced(left) };
    sequence(start, rest)
}

/// Sequences of success with an odd number of bytes.
fn balanced(bytes: usize) -> Vec<u8> {
    if bytes < 3 {
        return success();
    }
    let half = ((bytes - 1) / 2) | 1;
    sequence(balanced(half), balanced(bytes - 1 - half))
}
