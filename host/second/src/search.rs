//! Finding a block's answers, as they are defined.

use crate::eval::{Bindings, Fault, Store};
use crate::rules::Env;
use crate::script::Block;
use crate::types::Type;

/// Term numbers for a block's variables, in the order of its pairs.
pub type Tuple = Vec<u16>;

/// What is looked for: the first answer of a block, or the first after a tuple.
#[derive(Clone, Copy)]
pub struct Task<'a> {
    /// The store of the moment.
    pub store: Store<'a>,
    /// The block.
    pub block: &'a Block,
    /// The variables' types.
    pub types: &'a Env,
    /// What is bound so far.
    pub bindings: &'a Bindings,
    /// The tuple last used, if there is one.
    pub last: Option<&'a [u16]>,
}

impl Task<'_> {
    /// The type of the block's variable at this place.
    pub fn type_at(&self, place: usize) -> Type {
        let variable = usize::from(self.block.pairs[place].0);
        self.types[variable].expect("a block's variable has a type")
    }

    /// The numbers of the terms that have the type of the variable at this place, rising.
    pub fn candidates(&self, place: usize) -> Vec<u16> {
        let wanted = self.type_at(place);
        (0..self.store.terms.len()).filter(|n| self.store.terms.has_type(*n, wanted)).map(|n| n as u16).collect()
    }
}

/// A way to find answers.
pub trait Search {
    /// The first answer after the last tuple, or the first of all.
    fn first(&self, task: &Task) -> Result<Option<Tuple>, Fault>;
}

/// The definition: tuples of terms of the variables' types in order, the first variable weighing most; the query is
/// evaluated, with all its parts, for each of them after the last tuple until it holds.
#[derive(Clone, Copy, Debug, Default)]
pub struct Naive;

impl Search for Naive {
    fn first(&self, task: &Task) -> Result<Option<Tuple>, Fault> {
        let candidates: Vec<Vec<u16>> = (0..task.block.pairs.len()).map(|place| task.candidates(place)).collect();
        let mut bindings = *task.bindings;
        try_from(task, &candidates, &mut bindings, &mut Vec::new())
    }
}

fn try_from(
    task: &Task,
    candidates: &[Vec<u16>],
    bindings: &mut Bindings,
    tuple: &mut Tuple,
) -> Result<Option<Tuple>, Fault> {
    let place = tuple.len();
    if place == candidates.len() {
        let after = task.last.is_none_or(|last| tuple.as_slice() > last);
        let holds = after && task.store.query(&task.block.query, bindings)?;
        return Ok(holds.then(|| tuple.clone()));
    }
    for number in &candidates[place] {
        tuple.push(*number);
        bindings[usize::from(task.block.pairs[place].0)] = Some(*number);
        // A beginning that is before the last tuple's only begins tuples before it.
        if task.last.is_none_or(|last| tuple.as_slice() >= &last[..=place]) {
            if let Some(answer) = try_from(task, candidates, bindings, tuple)? {
                return Ok(Some(answer));
            }
        }
        tuple.pop();
    }
    Ok(None)
}
