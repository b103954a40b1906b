//! The evaluators of tuples: those that agree pass, and those with something wrong are found and cut down.

use compare::call::engine::{fast, plain, Second, Ways};
use compare::call::evaluator::Evaluator;
use compare::call::Engine;
use compare::case::Case;
use compare::count::Coverage;
use compare::judge::{Breach, Difference};
use second::eval::{Bindings, Evaluate, Fault, Store};
use second::script::{Cond, Query};
use second::seek::Seek;
use second::truth::Truth;
use wrong::{compare, Instead, FAST};

mod wrong;

const SEED: u64 = 29;

/// The index of the first of so many cases that shows a difference, and the difference.
fn difference(other: &dyn Engine, cases: u64) -> Option<(u64, Difference)> {
    let first = fast();
    let (mut evaluator, mut coverage) = (Evaluator::new(None, 1), Coverage::default());
    (0..cases).find_map(|index| {
        let case = Case::new(SEED, index, [&first, other], &mut coverage);
        case.evaluating(&mut evaluator).run().err().map(|difference| (index, difference))
    })
}

fn breach(other: &dyn Engine) -> Option<Breach> {
    difference(other, 300).map(|(_, difference)| difference.breach)
}

#[test]
fn fast_and_plain_agree() {
    assert_eq!(breach(&plain()), None);
}

/// Without evaluators the calls of a case are the same.
#[test]
fn cases_are_the_same_without_them() {
    let engine = fast();
    let mut evaluator = Evaluator::new(None, 1);
    let mut keep = |index, with| {
        let mut coverage = Coverage::default();
        let mut case = Case::new(SEED, index, [&engine, &engine], &mut coverage).keeping();
        if with {
            case = case.evaluating(&mut evaluator);
        }
        case.run().unwrap();
        case.kept().map(|replay| replay.moves)
    };
    assert!((0..50).all(|index| keep(index, true) == keep(index, false)));
    assert!(evaluator.tuples > 100);
}

/// A rule that leaves second parts out: whether what the first comes to decides, and how many records too few are counted then.
struct Rule {
    or: fn(Truth) -> bool,
    and: fn(Truth) -> bool,
    union: fn(bool) -> bool,
    both: fn(bool) -> bool,
    short: u32,
}

/// As document 02, Ask 4, has it.
const RIGHT: Rule = Rule {
    or: |first| first == Truth::True,
    and: |first| first == Truth::False,
    union: |first| first,
    both: |first| !first,
    short: 0,
};

impl Rule {
    fn parts(&self, decided: bool, first: u32, second: u32) -> u32 {
        if decided {
            first - self.short
        } else {
            first + second
        }
    }

    fn cond(&self, store: &Store, cond: &Cond, bindings: &Bindings) -> Result<u32, Fault> {
        let part = |cond: &Cond| self.cond(store, cond, bindings);
        Ok(1 + match cond {
            Cond::Or(a, b) => self.parts((self.or)(store.cond(a, bindings)?), part(a)?, part(b)?),
            Cond::And(a, b) => self.parts((self.and)(store.cond(a, bindings)?), part(a)?, part(b)?),
            Cond::Not(a) => part(a)?,
            _ => 0,
        })
    }

    fn query(&self, store: &Store, query: &Query, bindings: &Bindings) -> Result<u32, Fault> {
        let part = |query: &Query| self.query(store, query, bindings);
        Ok(1 + match query {
            Query::Union(a, b) => self.parts((self.union)(store.query(a, bindings)?), part(a)?, part(b)?),
            Query::Both(a, b) => self.parts((self.both)(store.query(a, bindings)?), part(a)?, part(b)?),
            Query::Filter(cond, _) => self.cond(store, cond, bindings)?,
            Query::Pattern(_) | Query::Empty => 0,
        })
    }

    fn evaluate(&self, store: &Store, query: &Query, bindings: &Bindings) -> Result<(bool, u32), Fault> {
        Ok((store.query(query, bindings)?, self.query(store, query, bindings)?))
    }
}

fn evaluating(evaluate: Evaluate) -> Second<Seek> {
    fast().by(Ways { evaluate, ..Ways::FAST })
}

#[test]
fn wrong_counts_are_found() {
    assert_eq!(breach(&evaluating(|s, q, b| RIGHT.evaluate(s, q, b))), None);
    let wrong: [Evaluate; 8] = [
        // One short where a second part is left out.
        |s, q, b| Rule { short: 1, ..RIGHT }.evaluate(s, q, b),
        // An or is left after a false first part.
        |s, q, b| Rule { or: |first| first == Truth::False, ..RIGHT }.evaluate(s, q, b),
        // An and, then an or, is left after an unknown first part too.
        |s, q, b| Rule { and: |first| first != Truth::True, ..RIGHT }.evaluate(s, q, b),
        |s, q, b| Rule { or: |first| first != Truth::False, ..RIGHT }.evaluate(s, q, b),
        // Nothing is left out, of one kind each.
        |s, q, b| Rule { or: |_| false, ..RIGHT }.evaluate(s, q, b),
        |s, q, b| Rule { and: |_| false, ..RIGHT }.evaluate(s, q, b),
        |s, q, b| Rule { union: |_| false, ..RIGHT }.evaluate(s, q, b),
        |s, q, b| Rule { both: |_| false, ..RIGHT }.evaluate(s, q, b),
    ];
    for (place, evaluate) in wrong.into_iter().enumerate() {
        assert_eq!(breach(&evaluating(evaluate)), Some(Breach::Evaluator), "{place}");
    }
}

#[test]
fn wrong_lines_are_found() {
    assert_eq!(breach(&FAST), None);
    let wrong: [fn(String) -> String; 6] = [
        |text| text.replace("cut off\n", ""),
        |text| text.replace("refused 21", "refused 10"),
        |text| text.replace("refused 11", "refused 10"),
        |text| text.replace("no block\n", ""),
        |text| text.replace("bad", "false 1"),
        |text| text.replace("true", "false"),
    ];
    for (place, lines) in wrong.into_iter().enumerate() {
        let wrong = Instead { evaluate: &|input| fast().evaluate(input).map(lines), ..FAST };
        assert_eq!(breach(&wrong), Some(Breach::Evaluator), "{place}");
    }
}

/// A difference is cut down to one tuple and the little that shows it.
#[test]
fn a_list_of_tuples_is_cut_down() {
    let wrong = evaluating(|s, q, b| Rule { both: |first| first, ..RIGHT }.evaluate(s, q, b));
    let (index, difference) = difference(&wrong, 300).expect("some query has a both");
    let text = compare([&fast(), &wrong]).smaller(SEED, index, &difference);
    let lines: Vec<&str> = text.lines().map(str::trim).collect();
    let asked = lines.iter().position(|line| *line == "evaluate now 0").expect("what is asked is told");
    assert!(lines[asked + 1].starts_with("tuple [") && lines.len() == asked + 2, "{text}");
    // A block's head, a both of two empty queries, success.
    let script = lines.iter().find_map(|line| line.strip_prefix("script ")).expect("the script is told");
    assert_eq!(script.matches("62").count(), 1, "{text}");
    assert!(script.ends_with("62656571"), "{text}");
}
