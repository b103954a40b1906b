//! The count of a tuple: how many records of kinds 50 to 65 it takes to evaluate it (document 02, Ask 4).
//!
//! The machine evaluates every part. The count is a second number, worked out from the machine's outcomes: one for the
//! record, its first part's count, and its second part's unless the first decides. A false first part decides 62 and 53, a
//! true one 63 and 52; unknown decides nothing, and nothing else is left out. Records below 50 are not counted.

use crate::eval::{Bindings, Fault, Store};
use crate::note::{note, Note};
use crate::script::{Cond, Query};
use crate::truth::Truth;

/// Whether a query holds, by the machine, and its count.
pub fn evaluate(store: &Store, query: &Query, bindings: &Bindings) -> Result<(bool, u32), Fault> {
    Ok((store.query(query, bindings)?, of_query(store, query, bindings)?))
}

fn of_query(store: &Store, query: &Query, bindings: &Bindings) -> Result<u32, Fault> {
    let part = |query| of_query(store, query, bindings);
    let parts = match query {
        Query::Pattern(_) | Query::Empty => 0,
        Query::Both(a, b) => {
            let (decided, met) = match store.query(a, bindings)? {
                false => (true, Note::BothLeftOut),
                true => (false, Note::BothTakenIn),
            };
            part(a)? + second(decided, met, || part(b))?
        }
        Query::Union(a, b) => {
            let (decided, met) = match store.query(a, bindings)? {
                true => (true, Note::UnionLeftOut),
                false => (false, Note::UnionTakenIn),
            };
            part(a)? + second(decided, met, || part(b))?
        }
        Query::Filter(cond, _) => of_cond(store, cond, bindings)?,
    };
    Ok(1 + parts)
}

fn of_cond(store: &Store, cond: &Cond, bindings: &Bindings) -> Result<u32, Fault> {
    let part = |cond| of_cond(store, cond, bindings);
    let parts = match cond {
        Cond::False | Cond::True => 0,
        Cond::Regex(..) | Cond::LangMatches(..) | Cond::Equal(..) | Cond::Less(..) => 0,
        Cond::Or(a, b) => {
            let (decided, met) = match store.cond(a, bindings)? {
                Truth::True => (true, Note::OrLeftOut),
                Truth::False => (false, Note::OrTakenIn),
                Truth::Unknown => (false, Note::OrAfterUnknown),
            };
            part(a)? + second(decided, met, || part(b))?
        }
        Cond::And(a, b) => {
            let (decided, met) = match store.cond(a, bindings)? {
                Truth::False => (true, Note::AndLeftOut),
                Truth::True => (false, Note::AndTakenIn),
                Truth::Unknown => (false, Note::AndAfterUnknown),
            };
            part(a)? + second(decided, met, || part(b))?
        }
        Cond::Not(a) => part(a)?,
    };
    Ok(1 + parts)
}

/// The count of a second part; it is left out where the first has decided.
fn second(decided: bool, met: Note, count: impl FnOnce() -> Result<u32, Fault>) -> Result<u32, Fault> {
    note(met);
    if decided {
        Ok(0)
    } else {
        count()
    }
}
