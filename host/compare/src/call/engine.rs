//! What is compared: an engine makes the calls of the C interface.

use super::{Call, Station};
use second::arcs;
use second::assignments;
use second::count;
use second::early;
use second::edge::{take_looks, Look};
use second::eval::{Evaluate, Fault};
use second::evaluator::{self, evaluate_with};
use second::gather::{self, Gathering};
use second::note::{take_notes, Note};
use second::number::{self, Reading};
use second::order::{self, Order};
use second::printer::print_with;
use second::publish::{self, Publishing};
use second::rank::{self, Alphabet};
use second::rules::Env;
use second::script::Script;
use second::search::{Naive, Search, Task, Tuple};
use second::seek::Seek;
use second::suggest::{self, Suggest};
use second::terms::Terms;
use second::Refusal;
use std::cell::{Cell, RefCell};

/// An engine.
pub trait Engine {
    /// Its name in reports.
    fn name(&self) -> &'static str;

    /// Told before each case.
    fn begin(&self) {}

    /// Makes a call with the station's buffers and this report; gives 0 or the number of its refusal.
    fn call(&self, station: &mut Station, call: &Call, report: &mut [u8]) -> u32;

    /// Reads the text of a number into this record; gives 0 or the number of its refusal.
    fn number(&self, text: &[u8], record: &mut [u8]) -> u32;

    /// Gathers a schema from a page into the front of this schema, with this report; gives 0 or the number of its refusal.
    fn schema(&self, page: &[u8], schema: &mut [u8], report: &mut [u8]) -> u32;

    /// What its type printer writes, if it has one that can be called.
    fn print(&self, _input: &[u8]) -> Option<String> {
        None
    }

    /// What its evaluator of tuples writes, if it has one that can be called.
    fn evaluate(&self, _input: &[u8]) -> Option<String> {
        None
    }

    /// Why the last call was refused, if it says so.
    fn why(&self) -> &'static str {
        ""
    }

    /// What the last call met on its way, if it says so.
    fn notes(&self) -> Vec<Note> {
        Vec::new()
    }

    /// What of the last call looked at texts at an edge, with the byte, if it says so.
    fn looks(&self) -> Vec<(Look, usize)> {
        Vec::new()
    }

    /// What it counted on the way.
    fn counts(&self) -> Vec<(&'static str, u64)> {
        Vec::new()
    }
}

/// How an engine of the crate `second` does what can be done in more than one way.
#[derive(Clone, Copy)]
pub struct Ways {
    /// Quads kept in order.
    pub order: Order,
    /// Ranks tested and followed.
    pub alphabet: Alphabet,
    /// Numbers read.
    pub reading: Reading,
    /// Written types suggested.
    pub suggest: Suggest,
    /// Schemas gathered.
    pub gathering: Gathering,
    /// Graphs published.
    pub publishing: Publishing,
    /// Tuples evaluated.
    pub evaluate: Evaluate,
}

impl Ways {
    /// The fast ones; tuples are evaluated by giving up early.
    pub const FAST: Ways = Ways {
        order: order::FAST,
        alphabet: rank::FAST,
        reading: number::fast,
        suggest: suggest::fast,
        gathering: gather::fast,
        publishing: publish::fast,
        evaluate: early::evaluate,
    };

    /// Those by the definitions.
    pub const PLAIN: Ways = Ways {
        order: order::PLAIN,
        alphabet: rank::PLAIN,
        reading: number::plain,
        suggest: suggest::plain,
        gathering: gather::plain,
        publishing: publish::plain,
        evaluate: count::evaluate,
    };
}

/// An engine of the crate `second`.
pub struct Second<S> {
    name: &'static str,
    /// For loads and the printer, and for the other calls.
    typers: [second::check::Typer; 2],
    search: S,
    ways: Ways,
    why: Cell<&'static str>,
    notes: RefCell<Vec<Note>>,
    looks: RefCell<Vec<(Look, usize)>>,
}

/// An engine with these parts: how types are worked out in loads and by the printer, and in the other calls; and how
/// answers are found. All else it does as the fast engine does.
pub fn with<S>(name: &'static str, typers: [second::check::Typer; 2], search: S) -> Second<S> {
    let (why, notes, looks) = (Cell::new(""), RefCell::default(), RefCell::default());
    Second { name, typers, search, ways: Ways::FAST, why, notes, looks }
}

/// The fast engine.
pub fn fast() -> Second<Seek> {
    with("second", [arcs::solve; 2], Seek)
}

thread_local! {
    /// Scripts typed by listing all assignments, by the rules one after the other, and by neither.
    static TYPED: Cell<[u64; 3]> = const { Cell::new([0; 3]) };
}

/// As [`assignments::solve`], counting how.
fn counted(script: &Script, terms: &Terms) -> Result<Env, Refusal> {
    let (way, types) = if assignments::open(script).len() <= assignments::LISTED {
        (0, assignments::by_listing(script, terms))
    } else {
        match assignments::by_atoms(script, terms) {
            Some(types) => (1, types),
            None => (2, arcs::solve(script, terms)),
        }
    };
    TYPED.with(|typed| {
        let mut counts = typed.get();
        counts[way] += 1;
        typed.set(counts);
    });
    types
}

/// The engine by the definitions, its search bounded by [`Bounded`].
pub fn plain() -> Second<Bounded> {
    with("plain", [counted, assignments::solve_again], Bounded::default()).by(Ways::PLAIN)
}

impl<S> Second<S> {
    /// The same in these ways.
    pub fn by(self, ways: Ways) -> Second<S> {
        Second { ways, ..self }
    }
}

impl<S: Search + Counts> Second<S> {
    fn engine(&self, again: bool) -> second::Engine<'_> {
        let Ways { order, alphabet, reading, suggest, gathering, publishing, .. } = self.ways;
        let typer = self.typers[usize::from(again)];
        second::Engine { typer, order, alphabet, reading, suggest, gathering, publishing, search: &self.search }
    }

    fn code(&self, outcome: Result<(), Refusal>) -> u32 {
        self.why.set(outcome.err().map_or("", |refusal| refusal.why));
        outcome.err().map_or(0, |refusal| refusal.number)
    }
}

impl<S: Search + Counts> Engine for Second<S> {
    fn name(&self) -> &'static str {
        self.name
    }

    fn begin(&self) {
        self.search.begin();
    }

    fn call(&self, station: &mut Station, call: &Call, report: &mut [u8]) -> u32 {
        let Station { card, ranks, term_table: terms, quad_table: quads, saved, page: buffer } = station;
        let inputs = [&ranks[..], &card.terms, &card.schema, &card.script];
        take_notes();
        take_looks();
        let code = self.code(match call {
            Call::Load => self.engine(false).load(inputs, [terms, quads, saved]),
            Call::Run { budget, now, .. } => {
                self.engine(true).run(inputs, [terms, quads], saved, (*budget, *now), report)
            }
            Call::Page { graph, page, .. } => {
                self.engine(true).page(inputs, [terms, quads, saved], *graph, page, report)
            }
            Call::Publish { graph, .. } => {
                let (card, tables) = ([inputs[1], inputs[2], inputs[3]], [&terms[..], quads, saved]);
                self.engine(true).publish(card, tables, *graph, buffer, report)
            }
            Call::Total { .. } => self.engine(false).total([inputs[1], inputs[2], inputs[3]], report),
            Call::Suggest { .. } => self.engine(false).suggest([inputs[1], inputs[2], inputs[3]], report),
        });
        self.notes.replace(take_notes());
        self.looks.replace(take_looks());
        code
    }

    fn number(&self, text: &[u8], record: &mut [u8]) -> u32 {
        self.code(self.engine(false).number(text, record))
    }

    fn schema(&self, page: &[u8], schema: &mut [u8], report: &mut [u8]) -> u32 {
        self.code(self.engine(false).schema(page, schema, report))
    }

    fn print(&self, input: &[u8]) -> Option<String> {
        Some(print_with(self.typers[0], input))
    }

    fn evaluate(&self, input: &[u8]) -> Option<String> {
        let Ways { order, alphabet, evaluate, .. } = self.ways;
        Some(evaluate_with(evaluator::Ways { typer: self.typers[1], order, alphabet, evaluate }, input))
    }

    fn why(&self) -> &'static str {
        self.why.get()
    }

    fn notes(&self) -> Vec<Note> {
        self.notes.borrow().clone()
    }

    fn looks(&self) -> Vec<(Look, usize)> {
        self.looks.borrow().clone()
    }

    fn counts(&self) -> Vec<(&'static str, u64)> {
        self.search.counts()
    }
}

/// A search that may count.
pub trait Counts {
    /// Told before each case.
    fn begin(&self) {}
    /// What it counted.
    fn counts(&self) -> Vec<(&'static str, u64)> {
        Vec::new()
    }
}

impl Counts for Seek {}

/// The naive search where the tuples to try are few enough, else the fast one; both are counted.
#[derive(Default)]
pub struct Bounded {
    naive: Cell<u64>,
    other: Cell<u64>,
    first: Cell<u64>,
    after: Cell<u64>,
    left: Cell<u64>,
}

fn one_more(count: &Cell<u64>) {
    count.set(count.get() + 1);
}

/// Tuples that one search may try, and that all searches of a case may.
const TUPLES: u64 = 20_000;
const TUPLES_OF_A_CASE: u64 = 100_000;

impl Search for Bounded {
    fn first(&self, task: &Task) -> Result<Option<Tuple>, Fault> {
        let places = 0..task.block.pairs.len();
        let tuples: u64 = places.map(|place| task.candidates(place).len() as u64).product();
        let answer = if tuples > TUPLES.min(self.left.get()) {
            one_more(&self.other);
            Seek.first(task)
        } else {
            self.left.set(self.left.get() - tuples);
            one_more(&self.naive);
            Naive.first(task)
        };
        if let Ok(Some(_)) = answer {
            one_more(if task.last.is_some() { &self.after } else { &self.first });
        }
        answer
    }
}

impl Counts for Bounded {
    fn begin(&self) {
        self.left.set(TUPLES_OF_A_CASE);
    }

    fn counts(&self) -> Vec<(&'static str, u64)> {
        vec![
            ("searches by definition", self.naive.get()),
            ("searches too large for it", self.other.get()),
            ("first answers", self.first.get()),
            ("answers after another", self.after.get()),
            ("typings by listing", TYPED.get()[0]),
            ("typings by rules in turn", TYPED.get()[1]),
            ("typings too large for both", TYPED.get()[2]),
        ]
    }
}
