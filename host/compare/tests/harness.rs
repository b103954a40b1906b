//! The comparison itself: engines that agree pass, and engines with something wrong are found.

use compare::call::engine::{fast, plain, with, Counts};
use compare::call::{Call, Engine, Station};
use compare::case::Case;
use compare::count::Coverage;
use compare::draw::is_block;
use second::arcs;
use second::check::read;
use second::eval::{Bindings, Fault, Store};
use second::lang::LangRange;
use second::pattern::Pattern;
use second::refusal::{refuse, Refusal};
use second::rules::Env;
use second::script::{Cond, Expr, Kind, Query, Script};
use second::search::{Search, Task, Tuple};
use second::seek::Seek;
use second::terms::Terms;
use second::truth::Truth;
use second::types::{Datatype, Type};
use willetcoffer::limits::{FETCHED_OFFSET, ITEMS_OFFSET, ITEM_WIDTH, SAVED_WIDTH};
use willetcoffer::page::records;
use willetcoffer::saved::{ITEM_MARK, ITEM_TUPLE};
use wrong::{differences, first_with, Instead, FAST};

mod wrong;

/// The first difference in so many cases.
fn difference(other: &dyn Engine, cases: u64) -> Option<String> {
    differences(11, cases, [&fast(), other]).next().map(|difference| difference.what)
}

#[test]
fn fast_and_plain_agree() {
    assert_eq!(difference(&plain(), 500), None);
}

#[test]
fn the_same_seed_gives_the_same_cases() {
    let engine = fast();
    let table = || {
        let mut coverage = Coverage::default();
        for index in 0..50 {
            Case::new(3, index, [&engine, &engine], &mut coverage).run().unwrap();
        }
        coverage.table()
    };
    assert_eq!(table(), table());
}

/// Typers that are wrong: 8 for every script, anyURI for all, the smallest type, no word of 9.
#[test]
fn wrong_typers_are_found() {
    fn always_8(_: &Script, _: &Terms) -> Result<Env, Refusal> {
        refuse(8, "always")
    }
    fn any_uri(script: &Script, terms: &Terms) -> Result<Env, Refusal> {
        Ok(arcs::solve(script, terms)?.map(|t| t.map(|_| Type::Data(Datatype::AnyUri))))
    }
    fn smallest(script: &Script, terms: &Terms) -> Result<Env, Refusal> {
        let smaller = |t| if t == Type::Data(Datatype::Decimal) { Type::Data(Datatype::Integer) } else { t };
        Ok(arcs::solve(script, terms)?.map(|t| t.map(smaller)))
    }
    fn never_9(script: &Script, terms: &Terms) -> Result<Env, Refusal> {
        arcs::solve(script, terms).or_else(|r| refuse(r.number.min(8), r.why))
    }
    for typer in [always_8, any_uri, smallest, never_9] {
        assert!(difference(&with("wrong", [typer; 2], Seek), 500).is_some());
    }
}

/// The search with something else in the place of `*` on an expression.
fn starred(task: &Task, other: &dyn Fn(Expr) -> Cond) -> Result<Option<Tuple>, Fault> {
    fn in_cond(cond: &mut Cond, other: &dyn Fn(Expr) -> Cond) {
        match cond {
            Cond::Or(a, b) | Cond::And(a, b) => [a, b].into_iter().for_each(|part| in_cond(part, other)),
            Cond::Not(a) => in_cond(a, other),
            Cond::LangMatches(LangRange::AnyTag, e) => *cond = other(e.clone()),
            _ => {}
        }
    }
    fn in_query(query: &mut Query, other: &dyn Fn(Expr) -> Cond) {
        match query {
            Query::Both(a, b) | Query::Union(a, b) => [a, b].into_iter().for_each(|part| in_query(part, other)),
            Query::Filter(cond, _) => in_cond(cond, other),
            Query::Pattern(_) | Query::Empty => {}
        }
    }
    let mut block = task.block.clone();
    in_query(&mut block.query, other);
    Seek.first(&Task { block: &block, ..*task })
}

/// Searches that are wrong in a small way.
#[test]
fn wrong_searches_are_found() {
    struct Wrong(fn(&Task) -> Result<Option<Tuple>, Fault>);
    impl Search for Wrong {
        fn first(&self, task: &Task) -> Result<Option<Tuple>, Fault> {
            (self.0)(task)
        }
    }
    impl Counts for Wrong {}
    // The second answer instead of the first.
    fn one_too_many(task: &Task) -> Result<Option<Tuple>, Fault> {
        let first = Seek.first(task)?;
        match Seek.first(&Task { last: first.as_deref(), ..*task })? {
            Some(second) if first.is_some() => Ok(Some(second)),
            _ => Ok(first),
        }
    }
    // The first answer again and again.
    fn from_the_start(task: &Task) -> Result<Option<Tuple>, Fault> {
        Seek.first(&Task { last: None, ..*task })
    }
    // Each variable's type as wide as it may be.
    fn without_types(task: &Task) -> Result<Option<Tuple>, Fault> {
        let types = task.types.map(|t| match t {
            Some(Type::Range(_)) => Some(Type::Data(Datatype::AnyUri)),
            other => other,
        });
        Seek.first(&Task { types: &types, ..*task })
    }
    // The last quad is not looked at.
    fn a_quad_fewer(task: &Task) -> Result<Option<Tuple>, Fault> {
        let mut store = task.store;
        store.quads = &store.quads[..store.quads.len().saturating_sub(1)];
        Seek.first(&Task { store, ..*task })
    }
    // `*` accepts every string, as the empty pattern does.
    fn star_of_all(task: &Task) -> Result<Option<Tuple>, Fault> {
        let all = Pattern::read(&[0; 16]).unwrap();
        starred(task, &|e| Cond::Regex(all.clone(), e))
    }
    // `*` refuses tags that begin with a hyphen too.
    fn star_of_letters(task: &Task) -> Result<Option<Tuple>, Fault> {
        let (any, hyphen) = (LangRange::AnyTag, LangRange::Tag(Vec::new()));
        let not = |e| Cond::Not(Box::new(Cond::LangMatches(hyphen.clone(), e)));
        starred(task, &|e: Expr| Cond::And(Box::new(Cond::LangMatches(any.clone(), e.clone())), Box::new(not(e))))
    }
    for search in [one_too_many, from_the_start, without_types, a_quad_fewer, star_of_all, star_of_letters] {
        assert!(difference(&with("wrong", [arcs::solve; 2], Wrong(search)), 500).is_some());
    }
}

/// A search with truth tables of its own.
struct Tables {
    /// What a comparison or a test on no value comes to.
    none: Truth,
    not: fn(Truth) -> Truth,
    and: fn(Truth, Truth) -> Truth,
    or: fn(Truth, Truth) -> Truth,
    /// Whether a filter holds.
    holds: fn(Truth) -> bool,
}

/// As document 02, Ask 5, has them.
const RIGHT: Tables =
    Tables { none: Truth::Unknown, not: Truth::not, and: Truth::and, or: Truth::or, holds: Truth::holds };

impl Tables {
    fn cond(&self, store: &Store, cond: &Cond, bindings: &Bindings) -> Result<Truth, Fault> {
        let part = |cond: &Cond| self.cond(store, cond, bindings);
        match cond {
            Cond::Or(a, b) => Ok((self.or)(part(a)?, part(b)?)),
            Cond::And(a, b) => Ok((self.and)(part(a)?, part(b)?)),
            Cond::Not(a) => Ok((self.not)(part(a)?)),
            test => Ok(match store.cond(test, bindings)? {
                Truth::Unknown => self.none,
                known => known,
            }),
        }
    }
}

impl Search for Tables {
    fn first(&self, task: &Task) -> Result<Option<Tuple>, Fault> {
        first_with(task, &|cond, bindings| self.cond(&task.store, cond, bindings).map(self.holds))
    }
}

impl Counts for Tables {}

#[test]
fn wrong_truth_tables_are_found() {
    let found = |tables: Tables| difference(&with("tables", [arcs::solve; 2], tables), 500).is_some();
    assert!(!found(RIGHT));
    // Document 01's two values: what holds no value is false.
    assert!(found(Tables { none: Truth::False, ..RIGHT }));
    // A filter holds unless its boolean is false.
    assert!(found(Tables { holds: |truth| truth != Truth::False, ..RIGHT }));
    // Not of unknown is true.
    assert!(found(Tables { not: |truth| Truth::from(truth != Truth::True), ..RIGHT }));
    // An unknown side makes them unknown whatever the other is.
    fn unknown_first(a: Truth, b: Truth, known: Truth) -> Truth {
        if [a, b].contains(&Truth::Unknown) {
            Truth::Unknown
        } else {
            known
        }
    }
    assert!(found(Tables { or: |a, b| unknown_first(a, b, a.or(b)), ..RIGHT }));
    assert!(found(Tables { and: |a, b| unknown_first(a, b, a.and(b)), ..RIGHT }));
}

/// Calls that are wrong.
#[derive(Clone, Copy, PartialEq, Eq, Debug)]
enum Fraud {
    /// A refused load clears the quad table.
    Clears,
    /// A run says spent without a step.
    Spends,
    /// A run moves nothing.
    Rests,
    /// A run counts one step too many.
    Invents,
    /// A page takes in its first record and counts the rest skipped.
    FirstOnly,
    /// A page leaves the old quads where they are.
    Keeps,
    /// A refused page writes its report.
    Reports,
    /// What means nothing is handed on.
    HandsOn,
    /// A last tuple is not looked at.
    Trusts,
    /// A total leaves out the records of kind 72.
    LeavesOut,
    /// A total looks for each blocks in the root alone.
    RootAlone,
}

impl Fraud {
    fn call(self, station: &mut Station, call: &Call, report: &mut [u8]) -> u32 {
        match call {
            Call::Load => self.load(station),
            Call::Run { .. } => self.run(station, call, report),
            Call::Page { graph, page, report: length } => {
                let page = match records(page).next() {
                    Some(first) if self == Fraud::FirstOnly => first.to_vec(),
                    _ => page.clone(),
                };
                self.page(station, &Call::Page { graph: *graph, page, report: *length }, report)
            }
            Call::Publish { .. } => fast().call(station, call, report),
            Call::Total { .. } => self.total(station, call, report),
            Call::Suggest { .. } => fast().call(station, call, report),
        }
    }

    fn load(self, station: &mut Station) -> u32 {
        let code = fast().call(station, &Call::Load, &mut []);
        if code != 0 && self == Fraud::Clears {
            station.quad_table.fill(0);
        }
        code
    }

    fn run(self, station: &mut Station, call: &Call, report: &mut [u8]) -> u32 {
        let before = station.saved.clone();
        if self == Fraud::Trusts && station.saved.len() == SAVED_WIDTH {
            // Last tuples past the table are made good before anybody looks.
            let used = station.used();
            let items = station.saved[ITEMS_OFFSET..].chunks_mut(ITEM_WIDTH);
            for item in items.filter(|item| item[ITEM_MARK] == 1) {
                for number in item[ITEM_TUPLE..].chunks_mut(2) {
                    if usize::from(u16::from_le_bytes([number[0], number[1]])) >= used {
                        number.fill(0);
                    }
                }
            }
        }
        let code = fast().call(station, call, report);
        let saved = &mut station.saved;
        let fetched = FETCHED_OFFSET..ITEMS_OFFSET;
        match (self, code) {
            (Fraud::Spends, 0) => report[..5].copy_from_slice(&[0, 0, 0, 0, 3]),
            (Fraud::Rests, 0) => saved.copy_from_slice(&before),
            (Fraud::Invents, 0) => report[0] = report[0].wrapping_add(1),
            (Fraud::HandsOn, 0) => saved[fetched.clone()].copy_from_slice(&before[fetched]),
            (Fraud::Trusts, 1..) => saved.copy_from_slice(&before),
            _ => {}
        }
        code
    }

    fn total(self, station: &mut Station, call: &Call, report: &mut [u8]) -> u32 {
        let code = fast().call(station, call, report);
        let Station { card, .. } = station;
        let Ok((_, _, Script { nodes })) = read(&card.terms, &card.schema, &card.script) else { return code };
        let named = nodes.iter().filter(|node| matches!(node.kind, Kind::FromNamed(..))).count();
        let once_at_the_root = !is_block(&nodes[0], true);
        match (self, code) {
            (Fraud::LeavesOut, 0) if report[..] != [0; 4] => report[0] = report[0].wrapping_sub(named as u8),
            (Fraud::RootAlone, 0) if once_at_the_root => report.copy_from_slice(&(nodes.len() as u32).to_le_bytes()),
            _ => {}
        }
        code
    }

    fn page(self, station: &mut Station, call: &Call, report: &mut [u8]) -> u32 {
        let before = station.quad_table.clone();
        let code = fast().call(station, call, report);
        match (self, code) {
            (Fraud::Keeps, 0) => station.quad_table.copy_from_slice(&before),
            (Fraud::Reports, 12..) => report.fill(0),
            _ => {}
        }
        code
    }
}

#[test]
fn wrong_calls_are_found() {
    use Fraud::*;
    for fraud in [Clears, Spends, Rests, Invents, FirstOnly, Keeps, Reports, HandsOn, Trusts, LeavesOut, RootAlone] {
        let wrong = Instead { call: &|station, call, report| fraud.call(station, call, report), ..FAST };
        assert!(difference(&wrong, 4000).is_some(), "{fraud:?}");
    }
}
