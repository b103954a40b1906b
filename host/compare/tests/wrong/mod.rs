//! Engines that are wrong on purpose, and how they are found.
#![allow(dead_code)]

use compare::call::engine::fast;
use compare::call::evaluator::Evaluator;
use compare::call::{Call, Engine, Station};
use compare::case::Case;
use compare::count::Coverage;
use compare::input::Input;
use compare::judge::{Breach, Difference};
use compare::replay::Replay;
use compare::run::Compare;
use second::eval::{Bindings, Fault};
use second::script::{Block, Cond, Query};
use second::search::{Search, Task, Tuple};
use second::seek::Seek;

/// How a call is made.
pub type How = fn(&mut Station, &Call, &mut [u8]) -> u32;

/// What is made of a call that was answered: of all that was lent, its number and its report. Where it makes a refusal of an answer, what was
/// lent is put back.
pub type Turn = fn(&mut Station, &Call, &mut u32, &mut [u8]);

/// How a number is read.
pub type Reads = fn(&[u8], &mut [u8]) -> u32;

/// How a schema is gathered.
pub type Gathers = fn(&[u8], &mut [u8], &mut [u8]) -> u32;

/// An engine that does something in another way, and the rest as [`FAST`].
#[derive(Clone, Copy)]
pub struct Instead<'a> {
    pub call: &'a dyn Fn(&mut Station, &Call, &mut [u8]) -> u32,
    pub turn: Turn,
    pub number: Reads,
    pub schema: Gathers,
    pub evaluate: &'a dyn Fn(&[u8]) -> Option<String>,
}

/// The second engine; it does not say why, and notes nothing.
pub const FAST: Instead = Instead {
    call: &|station, call, report| fast().call(station, call, report),
    turn: |_, _, _, _| {},
    number: |text, record| fast().number(text, record),
    schema: |page, schema, report| fast().schema(page, schema, report),
    evaluate: &|input| fast().evaluate(input),
};

impl Engine for Instead<'_> {
    fn name(&self) -> &'static str {
        "wrong"
    }

    fn call(&self, station: &mut Station, call: &Call, report: &mut [u8]) -> u32 {
        let before = station.clone();
        let answered = (self.call)(station, call, report);
        let mut code = answered;
        (self.turn)(station, call, &mut code, report);
        if answered == 0 && code != 0 {
            *station = before;
        }
        code
    }

    fn number(&self, text: &[u8], record: &mut [u8]) -> u32 {
        (self.number)(text, record)
    }

    fn schema(&self, page: &[u8], schema: &mut [u8], report: &mut [u8]) -> u32 {
        (self.schema)(page, schema, report)
    }

    fn evaluate(&self, input: &[u8]) -> Option<String> {
        (self.evaluate)(input)
    }
}

/// The differences that the first cases of a seed show, a case at most one.
pub fn differences<'a>(
    seed: u64,
    cases: u64,
    engines: [&'a dyn Engine; 2],
) -> impl Iterator<Item = Difference> + use<'a> {
    let mut coverage = Coverage::default();
    (0..cases).filter_map(move |index| Case::new(seed, index, engines, &mut coverage).run().err())
}

/// The first breach of these cases.
pub fn breach(seed: u64, cases: u64, engines: [&dyn Engine; 2]) -> Option<Breach> {
    differences(seed, cases, engines).next().map(|difference| difference.breach)
}

/// The cases of these that show a difference, as they are made again, each with it.
pub fn differing<'a>(
    seed: u64,
    cases: u64,
    engines: [&'a dyn Engine; 2],
) -> impl Iterator<Item = (Replay, Difference)> + use<'a> {
    (0..cases).filter_map(move |index| {
        let mut coverage = Coverage::default();
        let mut case = Case::new(seed, index, engines, &mut coverage).keeping();
        let difference = case.run().err()?;
        Some((case.kept().expect("a case that keeps its moves"), difference))
    })
}

/// The first breach of so many inputs of a seed.
pub fn breach_of<I: Input>(seed: u64, count: u64, engines: [&dyn Engine; 2]) -> Option<Breach> {
    (0..count).find_map(|index| I::draw(seed, index).judge(engines).err()).map(|difference| difference.breach)
}

/// Each is found against the right one, and by its breach where both are so.
pub fn each_found<'a, E: Engine>(
    breach: fn([&dyn Engine; 2]) -> Option<Breach>,
    wrong: impl Iterator<Item = (&'a str, E, Breach)>,
) {
    for (name, wrong, alike) in wrong {
        assert_eq!(breach([&fast(), &wrong]), Some(Breach::Answers), "{name}");
        assert_eq!(breach([&wrong, &wrong]), Some(alike), "{name}, both");
    }
}

/// A comparison of these, without programs.
pub fn compare<'a>(engines: [&'a dyn Engine; 2]) -> Compare<'a> {
    Compare { engines, printer: None, evaluator: Evaluator::new(None, 1), coverage: Coverage::default() }
}

/// Tuples that a search tries with filters of its own; past these it goes by the right ones.
const TRIED: usize = 2_000;

/// The first tuple for which the query holds, its filters as `holds` has them.
pub fn first_with(
    task: &Task,
    holds: &dyn Fn(&Cond, &Bindings) -> Result<bool, Fault>,
) -> Result<Option<Tuple>, Fault> {
    let any = Block { query: Query::Empty, ..task.block.clone() };
    let mut last = task.last.map(<[u16]>::to_vec);
    for _ in 0..TRIED {
        let next = Seek.first(&Task { block: &any, last: last.as_deref(), ..*task })?;
        let Some(tuple) = next else { return Ok(None) };
        let mut bindings = *task.bindings;
        for ((variable, _), number) in any.pairs.iter().zip(&tuple) {
            bindings[usize::from(*variable)] = Some(*number);
        }
        if query(task, &task.block.query, &bindings, holds)? {
            return Ok(Some(tuple));
        }
        last = Some(tuple);
    }
    Seek.first(task)
}

fn query(
    task: &Task,
    of: &Query,
    bindings: &Bindings,
    holds: &dyn Fn(&Cond, &Bindings) -> Result<bool, Fault>,
) -> Result<bool, Fault> {
    let part = |of: &Query| query(task, of, bindings, holds);
    match of {
        Query::Both(a, b) => Ok(part(a)? & part(b)?),
        Query::Union(a, b) => Ok(part(a)? | part(b)?),
        Query::Filter(cond, _) => holds(cond, bindings),
        Query::Pattern(_) | Query::Empty => task.store.query(of, bindings),
    }
}
