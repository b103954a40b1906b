//! The workloads, timed: the second engine, the proved one and the ratio of both.
//!
//! Build for release. Each call is timed alone on a fresh copy of its buffers, made just before it, so inputs and tables
//! are warm; the engines take turns, and the least of the repetitions is given, which other work on the machine
//! disturbs least. An argument leaves out the workloads whose name does not have it in it; `--case SEED:INDEX` times the run
//! calls of that case of the comparison instead.
#![forbid(unsafe_code)]

mod calls;
mod case;
mod filters;
mod names;
mod numbers;
mod published;
mod schemas;
mod stock;
mod suggestions;
mod texts;

use compare::call::archive::Archive;
use compare::call::engine::fast;
use compare::call::{Answer, Call, Engine, Station};
use std::error::Error;
use std::time::{Duration, Instant};
use texts::Texts;
use willetcoffer::limits::{BUDGET_LIMIT, NUMBER_RECORD_WIDTH, SCHEMA_REPORT_WIDTH, SCHEMA_WIDTH};
use willetcoffer::{BadTerm, RunReport, State};

/// The table.
struct Bench {
    /// The second and the proved.
    engines: [Box<dyn Engine>; 2],
    /// How long one workload may take for each engine.
    patience: Duration,
    /// What a workload's name has in it.
    only: String,
}

impl Bench {
    /// The least time of each engine, which take turns, and what their work gives, which must be the same.
    fn least<T: PartialEq>(&self, work: impl Fn(&dyn Engine) -> (Duration, T)) -> ([Duration; 2], T) {
        let mut least = [Duration::MAX; 2];
        let mut first = None;
        let start = Instant::now();
        let mut rounds = 0;
        while rounds < 7 || (rounds < 2001 && start.elapsed() < self.patience) {
            for (engine, least) in self.engines.iter().zip(&mut least) {
                let (time, result) = work(&**engine);
                *least = time.min(*least);
                assert!(first.as_ref().is_none_or(|first| *first == result), "the engines disagree");
                first.get_or_insert(result);
            }
            rounds += 1;
        }
        (least, first.expect("each workload is timed"))
    }

    /// Times a call on copies of the station.
    fn time(&self, station: &Station, call: &Call) -> ([Duration; 2], Answer) {
        let (times, (answer, _)) = self.least(|engine| {
            let mut copy = station.clone();
            let mut report = copy.lend(call);
            let begin = Instant::now();
            let code = engine.call(&mut copy, call, &mut report);
            let time = begin.elapsed();
            (time, (copy.answered(code, report), copy))
        });
        (times, answer)
    }

    /// Times a call that is refused with this number.
    fn refused_row(&self, name: &str, size: &str, station: &Station, call: &Call, refusal: u32) {
        if name.contains(&self.only) {
            let (times, answer) = self.time(station, call);
            assert_eq!(answer.code, refusal, "{name}");
            print_row(name, size, None, times);
        }
    }

    fn row(&self, name: &str, size: &str, station: &Station, call: &Call) {
        if !name.contains(&self.only) {
            return;
        }
        let (times, answer) = self.time(station, call);
        assert_eq!(answer.code, 0, "{name}");
        // An each block over success: two steps for each answer, one for the end.
        let answers = match (call, answer.ran()) {
            (Call::Run { budget: BUDGET_LIMIT, .. }, Some(RunReport { steps, state: State::Ended })) => {
                Some((steps - 1) / 2)
            }
            _ => None,
        };
        print_row(name, size, answers, times);
    }

    /// Texts of numbers, read one after the other; each is an answer.
    fn numbers(&self) {
        for (name, texts) in numbers::workloads() {
            if !name.contains(&self.only) {
                continue;
            }
            let (times, (codes, _)) = self.least(|engine| {
                let mut records = vec![[0; NUMBER_RECORD_WIDTH]; texts.len()];
                let begin = Instant::now();
                let read = texts.iter().zip(&mut records).map(|(text, record)| engine.number(text.as_bytes(), record));
                let codes: Vec<u32> = read.collect();
                (begin.elapsed(), (codes, records))
            });
            assert!(codes.iter().all(|code| *code == 0), "{name}");
            print_row(name, &format!("{} texts", texts.len()), Some(texts.len() as u32), times);
        }
    }

    /// Loads that are refused with 9, and the suggestions for them.
    fn suggestions(&self) -> Result<(), BadTerm> {
        for undecided in suggestions::ROWS {
            let station = undecided.station()?;
            let size = format!("{} bytes", station.card.script.len());
            self.refused_row(&undecided.name("load refused with 9"), &size, &station, &Call::Load, 9);
            self.row(&undecided.name("suggest"), &size, &station, &Call::suggest());
        }
        Ok(())
    }

    /// Schemas gathered from pages; each entry is an answer.
    fn schemas(&self) -> Result<(), BadTerm> {
        for workload in schemas::workloads()? {
            if !workload.name.contains(&self.only) {
                continue;
            }
            let (times, (code, _, report)) = self.least(|engine| {
                let (mut schema, mut report) = (vec![0; SCHEMA_WIDTH], [0; SCHEMA_REPORT_WIDTH]);
                let begin = Instant::now();
                let code = engine.schema(&workload.page, &mut schema, &mut report);
                (begin.elapsed(), (code, schema, report))
            });
            assert_eq!(code, workload.code, "{}", workload.name);
            let entries = (code == 0).then(|| u32::from(report[0]));
            print_row(workload.name, &format!("{} bytes", workload.page.len()), entries, times);
        }
        Ok(())
    }

    /// Graphs as pages; what a publish call takes beside reading what it is lent is what it takes more than for an empty graph.
    fn published(&self, reference: &dyn Engine) -> Result<(), BadTerm> {
        for workload in published::workloads(reference)? {
            let (station, call) = (&workload.station, workload.call());
            self.row(workload.name, &format!("{} quads", workload.quads()), station, &call);
        }
        Ok(())
    }

    /// Single calls at the limits.
    fn calls(&self, reference: &dyn Engine) -> Result<(), BadTerm> {
        for bytes in [512, 1024, 1536, 2048] {
            let station = calls::before_load(bytes, 0, Texts::Short)?;
            let size = format!("{} bytes", station.card.script.len());
            self.row("load, 512 terms, 128 entries", &size, &station, &Call::Load);
        }
        let mut loaded = calls::before_load(2048, 0, Texts::Short)?;
        assert_eq!(loaded.call(reference, &Call::Load).code, 0);
        self.row("run call of 0 steps, the same", "2048 bytes", &loaded, &Call::run(0, 0));
        let [load, run] = ["load, 256 of the terms strings", "run call of 0 steps, with these"];
        self.loads(reference, [load, run], Texts::Short)?;
        self.loads(reference, ["load, long texts", "run call of 0 steps, long texts"], Texts::Long)?;
        let pages = [
            "page of 65,536 bytes, new terms",
            "the same page again",
            "run call of 0 steps on these",
            "run call of 1 step on these",
        ];
        self.pages(reference, pages, Texts::Short)?;
        let pages = [
            "page of 65,536 bytes, long texts",
            "that page again",
            "run call of 0 steps on those",
            "run call of 1 step on those",
        ];
        self.pages(reference, pages, Texts::Long)
    }

    /// A card with many strings: its load, and a run call.
    fn loads(&self, reference: &dyn Engine, [load, run]: [&str; 2], texts: Texts) -> Result<(), BadTerm> {
        let mut station = calls::before_load(2048, 256, texts)?;
        self.row(load, "2048 bytes", &station, &Call::Load);
        assert_eq!(station.call(reference, &Call::Load).code, 0);
        self.row(run, "2048 bytes", &station, &Call::run(0, 0));
        Ok(())
    }

    /// A page as long as may be, the same again, and run calls on a full store.
    fn pages(&self, reference: &dyn Engine, names: [&str; 4], texts: Texts) -> Result<(), BadTerm> {
        let (station, page) = calls::full_page(reference, texts)?;
        let mut filled = station.clone();
        assert_eq!(filled.call(reference, &page).code, 0);
        let size = format!("{} quads", filled.quads().len());
        self.row(names[0], &size, &station, &page);
        self.row(names[1], &size, &filled, &page);
        let full = calls::full_store(reference, texts)?;
        self.row(names[2], "512 quads", &full, &Call::run(0, 0));
        self.row(names[3], "512 quads", &full, &Call::run(1, 0));
        Ok(())
    }

    /// Blocks that are searched to the end.
    fn searches(&self, reference: &dyn Engine) -> Result<(), BadTerm> {
        for workload in stock::workloads() {
            for locomotives in [21, 42, 84, 168].into_iter().filter(|n| *n <= workload.most) {
                let station = stock::station(reference, &workload, locomotives)?;
                let size = format!("{} quads", 3 * locomotives);
                self.row(workload.name, &size, &station, &Call::run(BUDGET_LIMIT, 0));
            }
        }
        for uris in [16, 33, 66] {
            let (station, call) = filters::station(reference, uris)?;
            self.row("union, two variables to filters", &format!("{uris} URIs"), &station, &call);
        }
        for row in names::rows() {
            for names in [42, 168] {
                let (station, call) = names::station(reference, row, names)?;
                self.row(row.name, &format!("{names} names"), &station, &call);
            }
        }
        Ok(())
    }

    /// The run calls of one case that are not refused.
    fn case(&self, case: &str, reference: &dyn Engine) -> Result<(), String> {
        for (place, (station, call)) in case::run_calls(case)?.into_iter().enumerate() {
            if station.clone().call(reference, &call).code == 0 {
                self.row(&format!("case {case}, run {place}"), &format!("{} terms", station.used()), &station, &call);
            }
        }
        Ok(())
    }
}

fn print_row(name: &str, size: &str, answers: Option<u32>, times: [Duration; 2]) {
    let micros = |time: &Duration| time.as_secs_f64() * 1e6;
    let mut line = format!("{name:34} {size:>11}");
    line += &answers.map_or(format!("{:>8}", "-"), |n| format!("{n:>8}"));
    for time in &times {
        line += &format!("{:>12.1}", micros(time));
        line += &answers.map_or(format!("{:>10}", "-"), |n| format!("{:>10.2}", micros(time) / f64::from(n.max(1))));
    }
    println!("{line}{:>8.2}", micros(&times[1]) / micros(&times[0]));
}

fn main() -> Result<(), Box<dyn Error>> {
    let engines: [Box<dyn Engine>; 2] = [Box::new(fast()), Box::new(Archive)];
    let mut head = format!("{:34} {:>11}{:>8}", "workload", "size", "answers");
    for engine in &engines {
        head += &format!("{:>12}{:>10}", format!("{} µs", engine.name()), "/answer");
    }
    println!("least of the repetitions; buffers are fresh copies, warm\n{head}   ratio");
    let arguments: Vec<String> = std::env::args().skip(1).collect();
    let mut bench = Bench { engines, patience: Duration::from_millis(250), only: String::new() };
    let reference = fast();
    match &arguments[..] {
        [option, case] if option == "--case" => return Ok(bench.case(case, &reference)?),
        [word, ..] => bench.only.clone_from(word),
        [] => {}
    }
    bench.calls(&reference)?;
    bench.suggestions()?;
    bench.published(&reference)?;
    bench.numbers();
    bench.schemas()?;
    Ok(bench.searches(&reference)?)
}
