//! Case after case, and input after input: differences printed, each with a smaller one that shows it too.

mod inputs;

use crate::before;
use crate::call::evaluator::Evaluator;
use crate::call::printer::Printer;
use crate::call::Engine;
use crate::case::Case;
use crate::count::Coverage;
use crate::judge::{unless_panicked, Breach, Difference};
use crate::replay::Replay;
use crate::shrink::{shrink, Patience};
use std::time::Duration;

/// Which cases, texts of numbers and pages for schemas, and when to stop.
#[derive(Clone, Debug)]
pub struct Plan {
    /// Their seed.
    pub seed: u64,
    /// The index of the first.
    pub from: u64,
    /// How many.
    pub cases: u64,
    /// How many texts of numbers.
    pub numbers: u64,
    /// How many pages that a schema is gathered from.
    pub schemas: u64,
    /// Whether each call is printed.
    pub printed: bool,
    /// Go on until so many differences, of cases, texts and pages each.
    pub differences: usize,
    /// Whether each case's index is said before it begins.
    pub trace: bool,
}

impl Plan {
    /// No case, text or page; a plan with some stops at the first difference.
    pub const NONE: Plan =
        Plan { seed: 1, from: 0, cases: 0, numbers: 0, schemas: 0, printed: false, differences: 1, trace: false };
}

/// What came of it.
pub struct Outcome {
    /// How many cases differed.
    pub differences: usize,
    /// The slowest call of each engine, with its case.
    pub slowest: [(Duration, u64); 2],
}

/// Two engines, where there is one the type printer as a program, and the evaluators of tuples.
pub struct Compare<'a> {
    /// The engines.
    pub engines: [&'a dyn Engine; 2],
    /// The printer.
    pub printer: Option<Printer>,
    /// The evaluators.
    pub evaluator: Evaluator,
    /// What was met.
    pub coverage: Coverage,
}

impl Compare<'_> {
    /// Runs the cases of a plan.
    pub fn run(&mut self, plan: &Plan) -> Outcome {
        let mut outcome = Outcome { differences: 0, slowest: [(Duration::ZERO, 0); 2] };
        for index in plan.from..plan.from + plan.cases {
            if plan.trace {
                eprintln!("case {}:{index}", plan.seed);
            }
            let (result, times) = self.case(plan, index);
            for (slowest, time) in outcome.slowest.iter_mut().zip(times) {
                *slowest = (*slowest).max((time, index));
            }
            let Err(difference) = result else { continue };
            self.tell("case", plan.seed, index, &difference);
            print!("{}", self.smaller(plan.seed, index, &difference));
            outcome.differences += 1;
            if outcome.differences >= plan.differences {
                break;
            }
        }
        outcome
    }

    /// Says a difference, and how to make it again.
    fn tell(&self, word: &str, seed: u64, index: u64, difference: &Difference) {
        println!("DIFFERENCE in {word} {seed}:{index}: {}", difference.what);
        let names = self.engines.map(|engine| engine.name());
        println!("  again: compare --engines {} --{word} {seed}:{index}", names.join(","));
    }

    /// One case: the printer's output, then its calls, each with what the evaluators are asked.
    fn case(&mut self, plan: &Plan, index: u64) -> (Result<(), Difference>, [Duration; 2]) {
        let mut case = Case::new(plan.seed, index, self.engines, &mut self.coverage);
        if plan.printed {
            case = case.printing();
        }
        if plan.printed || index.is_multiple_of(self.evaluator.every) {
            case = case.evaluating(&mut self.evaluator);
        }
        let printed = match &mut self.printer {
            Some(printer) if plan.printed || index.is_multiple_of(printer.every) => {
                printer.compare(&case.joined(), case.joined_before().as_deref())
            }
            _ => Ok(()),
        };
        (printed.and_then(|()| guarded(&mut case)), case.slowest)
    }

    /// The case of a difference, made smaller, in words.
    pub fn smaller(&mut self, seed: u64, index: u64, difference: &Difference) -> String {
        let mut uncounted = Coverage::default();
        let mut case = Case::new(seed, index, self.engines, &mut uncounted).keeping();
        if difference.breach == Breach::Evaluator {
            case = case.evaluating(&mut self.evaluator);
        }
        if difference.breach != Breach::Printer {
            let _ = guarded(&mut case);
        }
        let Some(replay) = case.kept() else { return String::new() };
        if self.judged(&replay, difference.breach).is_none() {
            return "  made again, it does not show\n".to_string();
        }
        let before = replay.bytes();
        let mut cut = || {
            let mut fails = |replay: &Replay| self.judged(replay, difference.breach).is_some();
            shrink(replay.clone(), Patience::default(), &mut fails)
        };
        let small = if difference.breach == Breach::Panic { quietly(cut) } else { cut() };
        let what = self.judged(&small, difference.breach).unwrap_or_default();
        let heads = format!("  smaller, {} bytes of {before}, shows: {what}\n", small.bytes());
        let moves = if small.moves.is_empty() { card_in_words(&small) } else { small.tell(self.engines) };
        heads + &indented(&moves)
    }

    /// What this case shows, if it is a breach of this sort.
    fn judged(&mut self, replay: &Replay, breach: Breach) -> Option<String> {
        let shown = match breach {
            Breach::Printer => self.printed(replay),
            Breach::Evaluator => self.evaluated(replay),
            _ => replay.play(self.engines).map(|(_, difference)| difference),
        };
        shown.filter(|difference| difference.breach == breach).map(|difference| difference.what)
    }

    /// How the type printers differ on its card.
    fn printed(&mut self, replay: &Replay) -> Option<Difference> {
        let input = replay.station.card.joined();
        let [a, b] = self.engines.map(|engine| engine.print(&input));
        match (a, b) {
            (Some(a), Some(b)) if a != b => Some(Difference::new(Breach::Printer, format!("{a:?} and {b:?}"))),
            _ => self.printer.as_mut()?.compare(&input, before::joined(&replay.station.card).as_deref()).err(),
        }
    }

    /// How an evaluator differs on what it is asked in the end.
    fn evaluated(&mut self, replay: &Replay) -> Option<Difference> {
        let (asked, station) = replay.asked_on(self.engines[0])?;
        self.evaluator.compare(self.engines, &asked.input(&station), &mut Coverage::default()).err()
    }
}

fn indented(words: &str) -> String {
    words.lines().map(|line| format!("    {line}\n")).collect()
}

fn card_in_words(replay: &Replay) -> String {
    let bytes: Vec<String> = replay.station.card.joined().iter().map(|byte| format!("{byte:02x}")).collect();
    format!("card {}\n", bytes.join(" "))
}

/// Runs a case.
fn guarded(case: &mut Case) -> Result<(), Difference> {
    unless_panicked(|| case.run())
}

/// Without a word about panics: while a case is cut down, an engine may panic over and over.
fn quietly<T>(work: impl FnOnce() -> T) -> T {
    let hook = std::panic::take_hook();
    std::panic::set_hook(Box::new(|_| {}));
    let result = work();
    std::panic::set_hook(hook);
    result
}
