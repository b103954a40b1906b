//! Outcome and count of a tuple in one walk that gives up early.
//!
//! Gives what [`crate::count`] works out wherever the machine meets no fault. A part that is left out is not evaluated, so
//! its faults are not met.

use crate::eval::{noted, Bindings, Fault, Store};
use crate::note::Note;
use crate::script::{Cond, Query};
use crate::truth::Truth;

/// What a record comes to, and its count.
type Counted<T> = Result<(T, u32), Fault>;

/// A record of two parts: the second is left out where the first comes to what decides.
fn two<T: PartialEq>(
    decides: T,
    (first, count): (T, u32),
    second: impl FnOnce() -> Counted<T>,
    join: fn(T, T) -> T,
) -> Counted<T> {
    if first == decides {
        return Ok((first, 1 + count));
    }
    let (second, more) = second()?;
    Ok((join(first, second), 1 + count + more))
}

/// Whether a query holds, and its count.
pub fn evaluate(store: &Store, query: &Query, bindings: &Bindings) -> Counted<bool> {
    let part = |query| evaluate(store, query, bindings);
    match query {
        Query::Both(a, b) => two(false, part(a)?, || part(b), |a, b| a & b),
        Query::Union(a, b) => two(true, part(a)?, || part(b), |a, b| a | b),
        Query::Filter(cond, _) => filter(store, cond, bindings),
        Query::Pattern(_) | Query::Empty => Ok((store.query(query, bindings)?, 1)),
    }
}

/// Whether a filter holds, and its count.
pub fn filter(store: &Store, cond: &Cond, bindings: &Bindings) -> Counted<bool> {
    let (truth, count) = part(store, cond, Note::Filter, bindings)?;
    Ok((truth.holds(), 1 + count))
}

/// A boolean below another record.
fn part(store: &Store, cond: &Cond, above: Note, bindings: &Bindings) -> Counted<Truth> {
    let part = |cond, above| part(store, cond, above, bindings);
    let (truth, count) = match cond {
        Cond::Or(a, b) => two(Truth::True, part(a, Note::Or)?, || part(b, Note::Or), Truth::or)?,
        Cond::And(a, b) => two(Truth::False, part(a, Note::And)?, || part(b, Note::And), Truth::and)?,
        Cond::Not(a) => {
            let (truth, count) = part(a, Note::Not)?;
            (truth.not(), 1 + count)
        }
        test => (store.cond(test, bindings)?, 1),
    };
    Ok((noted(truth, above), count))
}
