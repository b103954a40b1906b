//! The evaluator of tuples: what a run call is lent, and tuples for the block on top of its stack, to text.
//!
//! The input, without padding:
//!
//! | bytes | what |
//! |---|---|
//! | [`RANKS`] | the ranks |
//! | 2 each | the lengths of terms, schema and script |
//! | as told | terms, schema, script |
//! | [`TERM_TABLE`], [`QUAD_TABLE`], [`SAVED`] | term table, quad table, saved run |
//! | 8 | now, signed |
//! | [`TUPLE`] each | tuples: term numbers for the block's variables in the order of its pairs; those past its count are passed over |
//!
//! The output has a [`Line`] for each tuple, or a single one where there is no tuple to speak of.

use crate::arcs;
use crate::calls::faulted;
use crate::check::Typer;
use crate::count;
use crate::eval::{Evaluate, Store};
use crate::limits::{EVALUATOR, QUAD_TABLE, RANKS, SAVED, TERM_TABLE, TUPLE};
use crate::order::{self, Order};
use crate::rank::{self, Alphabet, Ranks};
use crate::refusal::{demand, Refusal};
use crate::script::Kind;
use crate::sound::{sound, Held, Lent};
use crate::term::is_second;
use std::fmt;

/// A line of the output.
#[derive(Clone, Copy, PartialEq, Eq, Debug)]
pub enum Line {
    /// The input has more than [`EVALUATOR`] bytes.
    TooLong,
    /// The input ends before the first tuple may begin, or within a tuple.
    CutOff,
    /// A run call refuses what was lent or this now, with this number.
    Refused(u32),
    /// The item on top of the stack is no block, or there is none.
    NoBlock,
    /// A number of the tuple is no term in use, or its term does not have the variable's type.
    Bad,
    /// Whether the block's query holds for the tuple, and the count.
    Evaluated(bool, u32),
}

impl fmt::Display for Line {
    fn fmt(&self, f: &mut fmt::Formatter) -> fmt::Result {
        match self {
            Line::TooLong => write!(f, "too long"),
            Line::CutOff => write!(f, "cut off"),
            Line::Refused(number) => write!(f, "refused {number}"),
            Line::NoBlock => write!(f, "no block"),
            Line::Bad => write!(f, "bad"),
            Line::Evaluated(holds, count) => write!(f, "{holds} {count}"),
        }
    }
}

impl From<Refusal> for Line {
    fn from(refusal: Refusal) -> Line {
        Line::Refused(refusal.number)
    }
}

/// What the evaluator is asked.
struct Asked<'a> {
    ranks: &'a Ranks,
    lent: Lent<'a>,
    now: i64,
    tuples: &'a [[u8; TUPLE]],
}

impl Asked<'_> {
    /// None where the input is cut off.
    fn read(input: &[u8]) -> Option<Asked<'_>> {
        let (ranks, mut input) = input.split_first_chunk::<RANKS>()?;
        let mut lengths = [0; 3];
        for length in &mut lengths {
            let (bytes, rest) = input.split_first_chunk()?;
            (*length, input) = (usize::from(u16::from_le_bytes(*bytes)), rest);
        }
        let mut next = |length| input.split_off(..length);
        let [terms, schema, script] = [next(lengths[0])?, next(lengths[1])?, next(lengths[2])?];
        let [term_table, quad_table] = [next(TERM_TABLE)?, next(QUAD_TABLE)?];
        let saved: &[u8; SAVED] = next(SAVED)?.try_into().ok()?;
        let (now, tuples) = input.split_first_chunk()?;
        let (tuples, rest) = tuples.as_chunks();
        let lent = Lent { terms, schema, script, term_table, quad_table, saved };
        rest.is_empty().then_some(Asked { ranks, lent, now: i64::from_le_bytes(*now), tuples })
    }
}

/// How types are worked out, the order of quads is tested, ranks are tested and followed, and tuples are evaluated.
#[derive(Clone, Copy)]
pub struct Ways {
    /// The types.
    pub typer: Typer,
    /// The order.
    pub order: Order,
    /// The ranks.
    pub alphabet: Alphabet,
    /// The tuples.
    pub evaluate: Evaluate,
}

/// Outcomes and counts as they are defined.
pub const DEFINED: Ways =
    Ways { typer: arcs::solve, order: order::PLAIN, alphabet: rank::PLAIN, evaluate: count::evaluate };

/// Sees a line for each tuple; gives the only line where there is no tuple to speak of.
fn tuples(ways: Ways, input: &[u8], see: &mut dyn FnMut(Line)) -> Result<(), Line> {
    if input.len() > EVALUATOR {
        return Err(Line::TooLong);
    }
    let Ways { typer, order, alphabet, evaluate } = ways;
    let Asked { ranks, lent, now, tuples } = Asked::read(input).ok_or(Line::CutOff)?;
    demand((alphabet.stands)(ranks), 21, "not each rank once")?;
    let Held { loaded, quads, mut machine } = sound(typer, order, &lent)?;
    demand(is_second(now), 11, "now")?;
    let top = machine.stack.last().map(|item| &loaded.script.nodes[item.node].kind);
    let Some(Kind::Block(block)) = top else { return Err(Line::NoBlock) };
    let lent = rank::Lent { ranks, alphabet };
    let store = Store { terms: &loaded.terms, quads: &quads, now, lent };
    for tuple in tuples {
        let (numbers, _) = tuple.as_chunks();
        let numbers: Vec<u16> = numbers.iter().map(|bytes| u16::from_le_bytes(*bytes)).collect();
        let good = block.pairs.iter().zip(&numbers).all(|((variable, _), number)| {
            let wanted = loaded.types[usize::from(*variable)];
            wanted.is_some_and(|t| loaded.terms.has_type(usize::from(*number), t))
        });
        if !good {
            see(Line::Bad);
            continue;
        }
        machine.bind(block, &numbers);
        let (holds, count) = evaluate(&store, &block.query, &machine.bindings).map_err(faulted)?;
        see(Line::Evaluated(holds, count));
    }
    Ok(())
}

/// Sees each line that the evaluator writes for this input, worked out in these ways.
pub fn each_line(ways: Ways, input: &[u8], see: &mut dyn FnMut(Line)) {
    if let Err(line) = tuples(ways, input, see) {
        see(line);
    }
}

/// What the evaluator writes for this input, worked out in these ways.
pub fn evaluate_with(ways: Ways, input: &[u8]) -> String {
    let mut text = String::new();
    each_line(ways, input, &mut |line| text += &format!("{line}\n"));
    text
}

/// What the evaluator writes for this input: outcomes and counts as they are defined.
pub fn evaluate(input: &[u8]) -> String {
    evaluate_with(DEFINED, input)
}
