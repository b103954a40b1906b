//! `compare --cases N --numbers N --schemas N --seed S`: random cases, texts of numbers and pages for schemas, for two engines. The work is the library's; here stand the options and the report.
#![forbid(unsafe_code)]

use compare::call::archive::Archive;
use compare::call::engine::{fast, plain};
use compare::call::evaluator::Evaluator;
use compare::call::number::Text;
use compare::call::printer::Printer;
use compare::call::schema::SchemaPage;
use compare::call::Engine;
use compare::count::Coverage;
use compare::run::{Compare, Outcome, Plan};
use std::process::ExitCode;
use std::time::{Duration, Instant};

const HELP: &str = "compare [options]
  --cases N            how many cases (50000)
  --numbers N          how many texts of numbers after them (20000)
  --schemas N          how many pages that a schema is gathered from after those (20000)
  --seed S             their seed (1)
  --from I             the index of the first (0)
  --case S:I           one case again, with all its calls
  --number S:I         one text of a number again
  --schema S:I         one page that a schema is gathered from again
  --engines A,B        two of second, plain, archive (second,archive)
  --printer PATH       a type printer to compare on some cases
  --printer-every K    which ones: each K-th (20)
  --evaluator PATH     an evaluator of tuples to compare on some cases
  --evaluator-every K  which ones: each K-th (20)
  --differences N      go on until so many differences (1)
  --trace              say each case's index before it begins, on standard error, to find one that does not return";

/// From so many cases, texts of numbers, or pages for schemas, on, what was met too rarely fails.
const LONG: u64 = 20_000;

/// Which cases a program is given where nothing is said: each so-manieth.
const EVERY: u64 = 20;

struct Options {
    plan: Plan,
    engines: [String; 2],
    printer: Option<Printer>,
    evaluator: Evaluator,
}

fn number(text: &str) -> Result<u64, String> {
    text.parse().map_err(|_| format!("{text} is no number"))
}

/// Makes a plan of the one case, text of a number or page for a schema that is to be made again.
fn again(plan: &mut Plan, option: &str, text: &str) -> Result<(), String> {
    let (seed, index) = text.split_once(':').ok_or(format!("{option} wants SEED:INDEX"))?;
    (plan.seed, plan.from, plan.printed) = (number(seed)?, number(index)?, true);
    [plan.cases, plan.numbers, plan.schemas] = ["--case", "--number", "--schema"].map(|one| u64::from(one == option));
    Ok(())
}

fn options() -> Result<Options, String> {
    let mut plan = Plan { cases: 50_000, numbers: LONG, schemas: LONG, ..Plan::NONE };
    let mut engines = ["second", "archive"].map(String::from);
    let (mut printer, mut evaluator) = ((None, EVERY), (None, EVERY));
    let mut arguments = std::env::args().skip(1);
    while let Some(argument) = arguments.next() {
        let mut value = || arguments.next().ok_or(format!("{argument} wants a value"));
        match argument.as_str() {
            "--cases" => plan.cases = number(&value()?)?,
            "--numbers" => plan.numbers = number(&value()?)?,
            "--schemas" => plan.schemas = number(&value()?)?,
            "--seed" => plan.seed = number(&value()?)?,
            "--from" => plan.from = number(&value()?)?,
            "--case" | "--number" | "--schema" => again(&mut plan, &argument, &value()?)?,
            "--engines" => {
                let names: Vec<String> = value()?.split(',').map(String::from).collect();
                engines = names.try_into().map_err(|_| "--engines wants two")?;
            }
            "--printer" => printer.0 = Some(value()?.into()),
            "--printer-every" => printer.1 = number(&value()?)?,
            "--evaluator" => evaluator.0 = Some(value()?.into()),
            "--evaluator-every" => evaluator.1 = number(&value()?)?,
            "--trace" => plan.trace = true,
            "--differences" => plan.differences = number(&value()?)? as usize,
            _ => return Err(HELP.to_string()),
        }
    }
    let evaluator = Evaluator::new(evaluator.0, evaluator.1);
    Ok(Options { plan, engines, printer: printer.0.map(|program| Printer::new(program, printer.1)), evaluator })
}

fn engine(name: &str) -> Result<Box<dyn Engine>, String> {
    match name {
        "second" => Ok(Box::new(fast())),
        "plain" => Ok(Box::new(plain())),
        "archive" => Ok(Box::new(Archive)),
        _ => Err(format!("{name} is no engine")),
    }
}

/// How many of cases, texts and pages differed, and how long they took.
struct Sums {
    differences: [usize; 3],
    times: [Duration; 3],
}

/// Prints how many cases, texts and pages of which engines differed, and the slowest calls of the cases.
fn report(plan: &Plan, engines: [&dyn Engine; 2], outcome: &Outcome, sums: &Sums) {
    let names = engines.map(|engine| engine.name());
    let seed = plan.seed;
    let counts = [(plan.cases, "cases"), (plan.numbers, "texts of numbers"), (plan.schemas, "pages for schemas")];
    let rows = counts.into_iter().zip(sums.differences).zip(sums.times);
    for (((count, what), differences), time) in rows.filter(|(((count, _), _), _)| *count > 0) {
        let (against, seconds) = (names.join(" against "), time.as_secs_f64());
        println!("{count} {what} from seed {seed}, {against}: {differences} differences in {seconds:.1} s");
    }
    for (name, (time, index)) in names.into_iter().zip(outcome.slowest).filter(|_| plan.cases > 0) {
        println!("slowest call of {name}: {:.1} ms in case {seed}:{index}", time.as_secs_f64() * 1e3);
    }
}

/// Whether all that is required of so many was met often enough, or they are few; what was not is said.
fn met(missing: &[String], count: u64, printed: bool) -> bool {
    let long = count >= LONG;
    if count > 0 && !missing.is_empty() && !printed {
        let word = if long { "MET TOO RARELY" } else { "met too rarely for a long run" };
        println!("{word}: {}", missing.join("; "));
    }
    missing.is_empty() || !long
}

/// Whether nothing differed and, in a long run, everything was met often enough.
fn compare() -> Result<bool, String> {
    let Options { plan, engines: [a, b], printer, evaluator } = options()?;
    let (a, b) = (engine(&a)?, engine(&b)?);
    let mut compare = Compare { engines: [&*a, &*b], printer, evaluator, coverage: Coverage::default() };
    let (start, outcome) = (Instant::now(), compare.run(&plan));
    let (after_cases, numbers) = (Instant::now(), compare.inputs::<Text>(&plan));
    let (after_numbers, schemas) = (Instant::now(), compare.inputs::<SchemaPage>(&plan));
    let times = [after_cases - start, after_numbers - after_cases, after_numbers.elapsed()];
    let sums = Sums { differences: [outcome.differences, numbers, schemas], times };
    let Compare { mut coverage, printer, evaluator, engines } = compare;
    for (name, count) in a.counts().into_iter().chain(b.counts()).filter(|_| plan.cases > 0) {
        coverage.add_many("by definition", name, count);
    }
    print!("{}", coverage.table());
    let all_met = met(&coverage.missing(plan.cases), plan.cases, plan.printed)
        & met(&coverage.missing_of_numbers(), plan.numbers, plan.printed)
        & met(&coverage.missing_of_schemas(plan.schemas), plan.schemas, plan.printed);
    report(&plan, engines, &outcome, &sums);
    if let Some(printer) = &printer {
        println!("the type printer saw {} of them", printer.seen);
    }
    if evaluator.program.is_some() {
        println!("the evaluator saw {} tuples", evaluator.tuples);
    }
    Ok(sums.differences.iter().sum::<usize>() == 0 && all_met)
}

fn main() -> ExitCode {
    match compare() {
        Ok(true) => ExitCode::SUCCESS,
        Ok(false) => ExitCode::FAILURE,
        Err(text) => {
            eprintln!("{text}");
            ExitCode::from(2)
        }
    }
}
