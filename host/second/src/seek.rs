//! Finding a block's answers fast.
//!
//! The variables are chosen in order. For each, the query is asked for the least term number, from a given one on, for
//! which it could still hold: a pattern looks through the quads that agree with what is chosen, `both` asks its parts one
//! after the other, `union` takes the smaller, and a filter is evaluated once all its variables are chosen, giving up early
//! ([`crate::early`]): it holds then or, false or unknown, never. What is skipped cannot hold. Before going deeper, the
//! variables after the next are asked too, so that a hopeless choice ends early.
//!
//! The quads stand in their order ([`crate::order`]), so those of one graph, or of one graph and subject, stand together, and
//! bisection finds the first of them.
//!
//! It gives the same first answer as [`crate::search::Naive`] wherever that meets no fault. A fault counts as not holding.

use crate::early;
use crate::eval::{Bindings, Fault, Quad};
use crate::order::packed;
use crate::script::{Name, Query};
use crate::search::{Search, Task, Tuple};

/// The search driven by the patterns.
#[derive(Clone, Copy, Debug, Default)]
pub struct Seek;

impl Search for Seek {
    fn first(&self, task: &Task) -> Result<Option<Tuple>, Fault> {
        let mut chosen = *task.bindings;
        for (variable, _) in &task.block.pairs {
            chosen[usize::from(*variable)] = None;
        }
        let end = task.store.terms.len() as u16;
        let mut seeker = Seeker { task, chosen, end, tuple: Vec::with_capacity(task.block.pairs.len()) };
        Ok(seeker.find(task.last).then_some(seeker.tuple))
    }
}

struct Seeker<'a> {
    task: &'a Task<'a>,
    /// The block's variables chosen so far, and those bound outside.
    chosen: Bindings,
    /// The number of terms: stands for "none".
    end: u16,
    tuple: Tuple,
}

impl Seeker<'_> {
    fn variable(&self, place: usize) -> u8 {
        self.task.block.pairs[place].0
    }

    /// Whether the variables not yet chosen can be, after `last` if there is one; if so they are in the tuple.
    fn find(&mut self, last: Option<&[u16]>) -> bool {
        let place = self.tuple.len();
        if place == self.task.block.pairs.len() {
            return last.is_none() && held(early::evaluate(&self.task.store, &self.task.block.query, &self.chosen));
        }
        let variable = self.variable(place);
        let from = last.map_or(0, |last| last[0]);
        let mut number = self.next(place, from);
        while number < self.end {
            self.chosen[usize::from(variable)] = Some(number);
            self.tuple.push(number);
            let rest = last.filter(|last| last[0] == number).map(|last| &last[1..]);
            if self.hopeful(place + 2) && self.find(rest) {
                return true;
            }
            self.tuple.pop();
            self.chosen[usize::from(variable)] = None;
            number = self.next(place, number + 1);
        }
        false
    }

    /// The least number from `from` on that has the variable's type and that the query allows.
    fn next(&self, place: usize, from: u16) -> u16 {
        let (variable, wanted) = (self.variable(place), self.task.type_at(place));
        let mut number = from;
        loop {
            let allowed = self.seek(&self.task.block.query, variable, number);
            number = allowed;
            while number < self.end && !self.task.store.terms.has_type(usize::from(number), wanted) {
                number += 1;
            }
            if number == allowed || number >= self.end {
                return number.min(self.end);
            }
        }
    }

    /// Whether the query allows some number for each variable from this place on.
    fn hopeful(&self, from_place: usize) -> bool {
        let query = &self.task.block.query;
        self.task.block.pairs.iter().skip(from_place).all(|(variable, _)| {
            let once = self.seek(query, *variable, 0);
            self.seek(query, *variable, once) < self.end
        })
    }

    /// The least number from `from` on that the query allows for the variable, given what is chosen.
    fn seek(&self, query: &Query, variable: u8, from: u16) -> u16 {
        if from >= self.end {
            return self.end;
        }
        match query {
            Query::Pattern(names) => self.scan(names, variable, from),
            Query::Both(a, b) => self.seek(b, variable, self.seek(a, variable, from)),
            Query::Union(a, b) => match self.seek(a, variable, from) {
                least if least == from => least,
                other => other.min(self.seek(b, variable, from)),
            },
            Query::Filter(cond, variables) => {
                let missing = (0..16).any(|v| variables >> v & 1 == 1 && self.chosen[v].is_none());
                if missing || held(early::filter(&self.task.store, cond, &self.chosen)) {
                    from
                } else {
                    self.end
                }
            }
            Query::Empty => from,
        }
    }

    /// The least number from `from` on that the variable has in a quad that fits the pattern; `from` itself if the pattern
    /// does not name the variable and some quad fits.
    fn scan(&self, names: &[Name; 4], variable: u8, from: u16) -> u16 {
        let wanted = Wanted::new(names, variable, &self.chosen);
        let rows = wanted.may_fit(self.task.store.quads, from).iter().map(row);
        let first = wanted.first();
        if first == 0 {
            return wanted.least(rows, from, self.end);
        }
        wanted.least(rows.take_while(|row| row & first == wanted.fixed & first), from, self.end)
    }
}

/// A quad as it stands, in one number: the graph lowest. It is tested in this form, which takes no turning round.
fn row(quad: &Quad) -> u64 {
    quad.iter().rev().fold(0, |bits, number| bits << 16 | u64::from(*number))
}

/// What a pattern asks of a quad, in one number as [`row`] has it.
struct Wanted {
    /// The places whose numbers are known.
    mask: u64,
    /// These numbers.
    fixed: u64,
    /// In how many places the sought variable stands.
    sought: usize,
    /// How far from the lowest bit each of these is.
    shifts: [u32; 4],
}

impl Wanted {
    fn new(names: &[Name; 4], variable: u8, chosen: &Bindings) -> Wanted {
        let mut wanted = Wanted { mask: 0, fixed: 0, sought: 0, shifts: [0; 4] };
        for (name, shift) in names.iter().zip([0, 16, 32, 48]) {
            let number = match name {
                Name::Const(number) => Some(*number),
                Name::Var(v) if *v == variable => {
                    wanted.shifts[wanted.sought] = shift;
                    wanted.sought += 1;
                    None
                }
                Name::Var(v) => chosen[usize::from(*v)],
            };
            if let Some(number) = number {
                wanted.mask |= 0xffff << shift;
                wanted.fixed |= u64::from(number) << shift;
            }
        }
        wanted
    }

    /// Those of the known places that weigh most: no unknown one stands before them. All quads that fit agree in them, and stand together.
    fn first(&self) -> u64 {
        let bits = self.mask.trailing_ones();
        u64::MAX.checked_shr(u64::BITS - bits).unwrap_or(0)
    }

    /// Whether the variable stands right after these, so that among the quads that agree in them its numbers rise.
    fn rises(&self) -> bool {
        self.sought > 0 && self.shifts[0] == self.mask.trailing_ones()
    }

    /// The quads from the first on that may fit.
    fn may_fit<'a>(&self, quads: &'a [Quad], from: u16) -> &'a [Quad] {
        let next = if self.rises() { u64::from(from) << self.shifts[0] } else { 0 };
        let least = self.fixed & self.first() | next;
        if least == 0 {
            return quads;
        }
        let least = packed(&[0, 16, 32, 48].map(|shift| (least >> shift) as u16));
        &quads[quads.partition_point(|quad| packed(quad) < least)..]
    }

    /// The least number from `from` on that the variable has in one of the rows that fit, or `end`; `from` where it stands nowhere
    /// and one fits.
    fn least(&self, rows: impl Iterator<Item = u64>, from: u16, end: u16) -> u16 {
        let mut best = end;
        for row in rows {
            if row & self.mask != self.fixed {
                continue;
            }
            let Some((shift, others)) = self.shifts[..self.sought].split_first() else {
                return from;
            };
            let number = (row >> shift) as u16;
            let agree = others.iter().all(|shift| (row >> shift) as u16 == number);
            if agree && from <= number && number < best {
                best = number;
                if best == from || self.rises() {
                    break;
                }
            }
        }
        best
    }
}

/// Whether it was found to hold.
fn held(evaluated: Result<(bool, u32), Fault>) -> bool {
    evaluated.is_ok_and(|(holds, _)| holds)
}
