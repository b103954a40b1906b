//! Soundness of what a run or page call is lent (refusal 10), clause by clause.

use crate::check::{check, Loaded, Typer};
use crate::eval::Quad;
use crate::hash::Set;
use crate::limits::{SAVED, SLOT};
use crate::machine::{Item, Machine};
use crate::order::Order;
use crate::refusal::{demand, refuse, Refusal};
use crate::saved::{self, SavedRun};
use crate::scope;
use crate::script::Kind;
use crate::term::{all_zero, Term};
use crate::terms::Terms;
use crate::types::Type;

/// What a call was lent.
#[derive(Clone, Copy)]
pub struct Lent<'a> {
    /// The listed terms.
    pub terms: &'a [u8],
    /// The schema.
    pub schema: &'a [u8],
    /// The script.
    pub script: &'a [u8],
    /// The term table.
    pub term_table: &'a [u8],
    /// The quad table.
    pub quad_table: &'a [u8],
    /// The saved run.
    pub saved: &'a [u8; SAVED],
}

/// What a sound saved run with its tables stands for.
#[derive(Clone, Debug)]
pub struct Held {
    /// Schema, script and types; its terms are all terms in use.
    pub loaded: Loaded,
    /// The stored quads, in their order.
    pub quads: Vec<Quad>,
    /// The machine.
    pub machine: Machine,
}

/// Everything decoded, or refusal 10.
pub fn sound(typer: Typer, order: Order, lent: &Lent) -> Result<Held, Refusal> {
    let loaded = check(typer, lent.terms, lent.schema, lent.script);
    let Ok(mut loaded) = loaded else {
        return refuse(10, "terms, schema or script do not load");
    };
    let run = saved::decode(lent.saved)?;
    let types = loaded.types.map(|t| t.map_or(0, Type::code));
    demand(run.types == types, 10, "types are not those worked out")?;
    use_terms(&mut loaded, lent.term_table)?;
    let fetched = fetched_graphs(&loaded.terms, &run)?;
    let quads = stored_quads(&loaded.terms, &run, lent.quad_table)?;
    demand((order.stands)(&quads), 10, "quads not in rising order")?;
    let stack = stack(&loaded, &run)?;
    bindings(&loaded, &run)?;
    let machine = Machine { stack, bindings: run.bound, fetched };
    Ok(Held { loaded, quads, machine })
}

/// Used term slots are valid and distinct and begin as loading numbers them, the rest is zero.
fn use_terms(loaded: &mut Loaded, table: &[u8]) -> Result<(), Refusal> {
    let slots: Vec<&[u8]> = table.chunks(SLOT).collect();
    let used = slots.iter().position(|slot| slot[0] == 0).unwrap_or(slots.len());
    demand(all_zero(&table[SLOT * used..]), 10, "free term slot not zero")?;
    let used = &slots[..used];
    let own = loaded.terms.len();
    demand(own <= used.len(), 10, "term slots too few")?;
    let begin = loaded.terms.iter().zip(used).all(|(term, slot)| term.slot() == *slot);
    demand(begin, 10, "term slots begin otherwise")?;
    for (number, slot) in used.iter().enumerate().skip(own) {
        let Some(term) = Term::from_slot(slot) else {
            return refuse(10, "term slot not valid");
        };
        demand(loaded.terms.add(term, &loaded.schema) == number, 10, "term slots not distinct")?;
    }
    Ok(())
}

/// Fetched graphs are distinct URIs.
fn fetched_graphs(terms: &Terms, run: &SavedRun) -> Result<Vec<u16>, Refusal> {
    let mut seen = Set::default();
    for graph in &run.fetched {
        demand(terms.is_uri(usize::from(*graph)), 10, "fetched graph no URI")?;
        demand(seen.insert(*graph), 10, "fetched graph twice")?;
    }
    Ok(run.fetched.clone())
}

/// Quads are well typed, in fetched graphs, the rest of their table zero. That they are distinct is part of their order.
fn stored_quads(terms: &Terms, run: &SavedRun, table: &[u8]) -> Result<Vec<Quad>, Refusal> {
    let (used, free) = table.split_at(8 * run.quads);
    demand(all_zero(free), 10, "free quad place not zero")?;
    let number = |row: &[u8], at: usize| u16::from_le_bytes([row[at], row[at + 1]]);
    let quads: Vec<Quad> = used.chunks(8).map(|row| [0, 2, 4, 6].map(|at| number(row, at))).collect();
    for quad in &quads {
        let [_, subject, property, object] = quad.map(usize::from);
        demand(run.fetched.contains(&quad[0]), 10, "quad in no fetched graph")?;
        demand(terms.is_uri(subject), 10, "quad's subject no URI")?;
        let typed = terms.range(property).map(|datatype| terms.has_type(object, Type::Data(datatype)));
        demand(typed.is_some(), 10, "quad's property no schema URI")?;
        demand(typed == Some(true), 10, "quad's object of another type")?;
    }
    Ok(quads)
}

/// Stack items are records of kinds 71 to 74, the n-th from the bottom at depth n or more, each variable free in one bound; a
/// last tuple names terms of the table. Only an each block has a last tuple.
fn stack(loaded: &Loaded, run: &SavedRun) -> Result<Vec<Item>, Refusal> {
    let mut stack = Vec::new();
    for (below, item) in run.items.iter().enumerate() {
        let Some(node) = loaded.script.at(item.offset) else {
            return refuse(10, "stack item no script record");
        };
        demand(loaded.script.nodes[node].depth > below, 10, "stack item not deep enough")?;
        let free = scope::free(&loaded.script, node);
        let bound = (0..16).all(|v| free >> v & 1 == 0 || run.bound[v].is_some());
        demand(bound, 10, "free variable not bound")?;
        let last = match (&loaded.script.nodes[node].kind, item.last) {
            (Kind::Block(block), Some(tuple)) if block.each => {
                let tuple = tuple[..block.pairs.len()].to_vec();
                let named = tuple.iter().all(|n| usize::from(*n) < loaded.terms.len());
                demand(named, 10, "last tuple names no term")?;
                Some(tuple)
            }
            _ => None,
        };
        stack.push(Item { node, last });
    }
    Ok(stack)
}

/// Each bound variable is one that the script binds and holds a term of its type.
fn bindings(loaded: &Loaded, run: &SavedRun) -> Result<(), Refusal> {
    for (number, t) in run.bound.iter().zip(loaded.types) {
        if let Some(number) = number {
            demand(t.is_some(), 10, "bound variable that no block binds")?;
            let typed = t.is_some_and(|t| loaded.terms.has_type(usize::from(*number), t));
            demand(typed, 10, "bound variable's term of another type")?;
        }
    }
    Ok(())
}
