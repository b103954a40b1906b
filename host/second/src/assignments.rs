//! The types of a script as they are defined: over all assignments of the ten types to the open variables.

use crate::arcs;
use crate::refusal::{refuse, Refusal};
use crate::rules::{Env, Rules};
use crate::script::{Cond, Kind, Name, Query, Script};
use crate::terms::Terms;
use crate::types::Type;

/// Up to this many open variables every assignment is listed.
pub const LISTED: usize = 3;
/// Rule checks after which [`by_atoms`] gives up.
const PATIENCE: u32 = 30_000;

/// The greatest typing, or refusal 8 or 9. Up to [`LISTED`] open variables by [`by_listing`], then by [`by_atoms`], and
/// where that would take too long by [`arcs::solve`].
pub fn solve(script: &Script, terms: &Terms) -> Result<Env, Refusal> {
    if open(script).len() <= LISTED {
        return by_listing(script, terms);
    }
    by_atoms(script, terms).unwrap_or_else(|| arcs::solve(script, terms))
}

/// As [`solve`], by [`by_listing`] up to two open variables only: for calls that work the types out again.
pub fn solve_again(script: &Script, terms: &Terms) -> Result<Env, Refusal> {
    if open(script).len() <= 2 {
        by_listing(script, terms)
    } else {
        arcs::solve(script, terms)
    }
}

/// The open variables.
pub fn open(script: &Script) -> Vec<usize> {
    let written = script.written();
    (0..16).filter(|v| written[*v] == Some(None)).collect()
}

/// The assignment of the written types.
fn written(script: &Script) -> Env {
    script.written().map(Option::flatten)
}

/// Whether each variable's type in `a` is above its type in `b`.
fn above(a: &Env, b: &Env) -> bool {
    a.iter().zip(b).all(|pair| match pair {
        (Some(a), Some(b)) => b.le(*a),
        (a, b) => a == b,
    })
}

/// The definition: list every assignment, keep those that the rules take, and ask for one above all of them.
pub fn by_listing(script: &Script, terms: &Terms) -> Result<Env, Refusal> {
    let mut list = vec![written(script)];
    for variable in open(script) {
        let longer = list.iter().flat_map(|env| {
            Type::all().map(move |t| {
                let mut env = *env;
                env[variable] = Some(t);
                env
            })
        });
        list = longer.collect();
    }
    list.retain(|env| Rules { terms, env }.script(script));
    if list.is_empty() {
        return refuse(8, "no typing");
    }
    match list.iter().find(|a| list.iter().all(|b| above(a, b))) {
        Some(greatest) => Ok(*greatest),
        None => refuse(9, "no typing above the rest"),
    }
}

/// One rule to be met, with the variables it speaks of.
enum Atom<'a> {
    Pattern(&'a [Name; 4]),
    Cond(&'a Cond),
    FromNamed(&'a Name),
}

impl Atom<'_> {
    fn variables(&self) -> u16 {
        match self {
            Atom::Pattern(names) => Query::Pattern(**names).variables(),
            Atom::Cond(cond) => cond.variables(),
            Atom::FromNamed(name) => name.variables(),
        }
    }

    fn met(&self, rules: Rules) -> bool {
        match self {
            Atom::Pattern(names) => rules.pattern(names),
            Atom::Cond(cond) => rules.cond(cond),
            Atom::FromNamed(name) => rules.from_named(name),
        }
    }
}

fn cond_atoms<'a>(cond: &'a Cond, atoms: &mut Vec<Atom<'a>>) {
    match cond {
        Cond::Or(a, b) | Cond::And(a, b) => {
            cond_atoms(a, atoms);
            cond_atoms(b, atoms);
        }
        Cond::Not(a) => cond_atoms(a, atoms),
        leaf => atoms.push(Atom::Cond(leaf)),
    }
}

fn query_atoms<'a>(query: &'a Query, atoms: &mut Vec<Atom<'a>>) {
    match query {
        Query::Pattern(names) => atoms.push(Atom::Pattern(names)),
        Query::Both(a, b) | Query::Union(a, b) => {
            query_atoms(a, atoms);
            query_atoms(b, atoms);
        }
        Query::Filter(cond, _) => cond_atoms(cond, atoms),
        Query::Empty => {}
    }
}

struct Atoms<'a> {
    terms: &'a Terms,
    atoms: Vec<(u16, Atom<'a>)>,
    patience: u32,
}

/// The same answer for more open variables, or none if it would take too long.
///
/// A typing is built variable by variable, and each rule is judged as soon as its variables have types. The greatest
/// typing, if there is one, gives each variable the greatest of the types that it has in some typing; so it is enough to
/// know these, and to judge that one assignment.
pub fn by_atoms(script: &Script, terms: &Terms) -> Option<Result<Env, Refusal>> {
    let mut atoms = Vec::new();
    for node in &script.nodes {
        match &node.kind {
            Kind::FromNamed(name, _) => atoms.push(Atom::FromNamed(name)),
            Kind::Block(block) => query_atoms(&block.query, &mut atoms),
            Kind::Success | Kind::Sequence(..) => {}
        }
    }
    let atoms = atoms.into_iter().map(|atom| (atom.variables(), atom)).collect();
    let mut atoms = Atoms { terms, atoms, patience: PATIENCE };
    let fixed = written(script);
    let open = open(script);
    if !atoms.extends(&mut fixed.clone(), &open, &[])? {
        return Some(refuse(8, "no typing"));
    }
    let mut greatest = fixed;
    for &variable in &open {
        let mut possible = Vec::new();
        for t in Type::all() {
            let mut env = fixed;
            env[variable] = Some(t);
            if atoms.extends(&mut env, &open, &[variable])? {
                possible.push(t);
            }
        }
        greatest[variable] = possible.iter().copied().find(|t| possible.iter().all(|u| u.le(*t)));
        if greatest[variable].is_none() {
            return Some(refuse(9, "no typing above the rest"));
        }
    }
    let taken = Rules { terms, env: &greatest }.script(script);
    Some(if taken { Ok(greatest) } else { refuse(9, "no typing above the rest") })
}

impl Atoms<'_> {
    /// Whether the assignment, given for `done` and the written variables, extends to a typing of all `open` variables.
    fn extends(&mut self, env: &mut Env, open: &[usize], done: &[usize]) -> Option<bool> {
        let known = env.iter().enumerate().filter(|(_, t)| t.is_some()).fold(0u16, |bits, (v, _)| bits | 1 << v);
        for (variables, atom) in &self.atoms {
            if variables & !known == 0 {
                self.patience = self.patience.checked_sub(1)?;
                if !atom.met(Rules { terms: self.terms, env }) {
                    return Some(false);
                }
            }
        }
        // Next a variable that shares a rule with a known one, if there is one.
        let near = |v: &&usize| self.atoms.iter().any(|(vars, _)| vars >> **v & 1 == 1 && vars & known != 0);
        let waiting = || open.iter().filter(|v| !done.contains(v));
        let Some(&next) = waiting().find(near).or_else(|| waiting().next()) else {
            return Some(true);
        };
        let done = [done, &[next]].concat();
        for t in Type::all() {
            env[next] = Some(t);
            if self.extends(env, open, &done)? {
                return Some(true);
            }
        }
        env[next] = None;
        Some(false)
    }
}
