//! What the evaluators are asked: tuples for the block on top of a station's stack, most of them of the variables' types and near the
//! stored quads; and now and then a station that is unsound or has no block on top, or an input that is cut off or too long.

use super::next::now;
use super::pages::patterns;
use super::ranks;
use super::rng::Rng;
use super::tamper::{number, tamper};
use super::Draw;
use crate::call::Station;
use crate::replay::{Asked, Numbers, Tampering};
use second::eval::{Bindings, Quad};
use second::limits::EVALUATOR;
use second::script::{Block, Kind, Name};
use second::sound::{sound, Held, Lent};
use second::{arcs, order};
use willetcoffer::limits::PAIR_LIMIT;

/// Tuples of a list, at most.
const TUPLES: usize = 20;

impl Draw {
    /// What is asked on a sound station; most often nothing where no block is on top.
    pub fn asked(&mut self, station: &Station) -> Option<Asked> {
        let rng = &mut self.asking;
        let held = held(station)?;
        let block = top_block(&held);
        if block.is_none() && !rng.one_in(8) {
            return None;
        }
        let tuples = (0..rng.within(0, TUPLES)).map(|_| match block {
            Some(block) => tuple(rng, station, &held, block),
            None => std::array::from_fn(|_| number(rng, station) as u16),
        });
        let tuples = tuples.collect();
        let mut lent = station.ranks.clone();
        match rng.below(25) {
            0 => ranks::spoil_in_place(rng, &mut lent),
            1..=3 => lent = ranks::good(rng),
            _ => {}
        }
        let mut asked = Asked { tampering: None, ranks: lent, now: now(rng), tuples, left: None };
        if rng.one_in(10) {
            let mut changed = station.clone();
            let label = tamper(rng, &self.pool, &mut changed);
            asked.tampering = Some(Tampering::between(label, station, &changed));
        }
        if rng.one_in(15) {
            let whole = asked.input(station).len();
            asked.left = Some(cut(rng, whole));
        } else if rng.one_in(30) {
            asked.left = Some(EVALUATOR + rng.within(1, 9));
        }
        Some(asked)
    }
}

/// Where an input is cut off: anywhere, or near its end.
fn cut(rng: &mut Rng, whole: usize) -> usize {
    if rng.one_in(3) {
        rng.below(whole)
    } else {
        whole - rng.below(whole.min(60))
    }
}

/// What a sound station stands for.
fn held(station: &Station) -> Option<Held> {
    let Station { card, term_table, quad_table, saved, .. } = station;
    let saved = saved[..].try_into().ok()?;
    let (terms, schema, script) = (&card.terms, &card.schema, &card.script);
    sound(arcs::solve, order::FAST, &Lent { terms, schema, script, term_table, quad_table, saved }).ok()
}

fn top_block(held: &Held) -> Option<&Block> {
    match &held.loaded.script.nodes[held.machine.stack.last()?.node].kind {
        Kind::Block(block) => Some(block),
        _ => None,
    }
}

/// Numbers for a block's variables, and any in the places past its count.
fn tuple(rng: &mut Rng, station: &Station, held: &Held, block: &Block) -> Numbers {
    let last = held.machine.stack.last().and_then(|top| top.last.as_ref());
    let mut numbers: Numbers = std::array::from_fn(|_| number(rng, station) as u16);
    let near = near_quads(rng, held, block);
    for (place, (variable, _)) in block.pairs.iter().enumerate() {
        let fits: Vec<u16> = (0..station.used() as u16).filter(|number| has(held, *variable, *number)).collect();
        let number = near[usize::from(*variable)].or(rng.pick(&fits).copied());
        numbers[place] = number.unwrap_or(numbers[place]);
    }
    match (last, rng.below(10)) {
        (Some(last), 0..=1) => numbers[..last.len()].copy_from_slice(last),
        (_, 2) => numbers[rng.below(PAIR_LIMIT)] = number(rng, station) as u16,
        _ => {}
    }
    numbers
}

/// Whether the term of this number has the variable's type.
fn has(held: &Held, variable: u8, number: u16) -> bool {
    let wanted = held.loaded.types[usize::from(variable)];
    wanted.is_some_and(|t| held.loaded.terms.has_type(usize::from(number), t))
}

/// Numbers for some of a block's variables with which some patterns of its query have their quads.
fn near_quads(rng: &mut Rng, held: &Held, block: &Block) -> Bindings {
    let mut bound = held.machine.bindings;
    for (variable, _) in &block.pairs {
        bound[usize::from(*variable)] = None;
    }
    let mut patterns = patterns(&block.query);
    rng.shuffle(&mut patterns);
    patterns.truncate(rng.below(patterns.len() + 1));
    for names in patterns {
        let fits = |quad: &&Quad| {
            names.iter().zip(quad.iter()).all(|(name, number)| match name {
                Name::Const(constant) => constant == number,
                Name::Var(v) => bound[usize::from(*v)].map_or(has(held, *v, *number), |n| n == *number),
            })
        };
        let quads: Vec<&Quad> = held.quads.iter().filter(fits).collect();
        let Some(quad) = rng.pick(&quads) else { continue };
        for (name, number) in names.iter().zip(quad.iter()) {
            if let Name::Var(v) = name {
                bound[usize::from(*v)] = Some(*number);
            }
        }
    }
    bound
}
