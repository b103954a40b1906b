//! What the panel prints.

use crate::card::{CALLED, FAST, NAMES};
use willetcoffer::page::{records, terms};
use willetcoffer::{PageReport, Refusal, SavedRun, State, Suggestion, Tables, Term};

/// A page that was published, record by record.
pub fn published(page: &[u8]) {
    println!("publish  {} records, {} bytes", records(page).count(), page.len());
    for triple in records(page).filter_map(terms) {
        println!("         {}", triple.map(|term| term.to_string()).join(" "));
    }
}

/// Whether what was taken in is published again as it was.
pub fn published_again(same: bool) {
    println!("publish  {}", if same { "the same bytes" } else { "other bytes" });
}

/// What a page call reported.
pub fn taken_in(what: &str, report: PageReport, saved: &SavedRun) {
    println!("page     {what}: {} skipped, {} quads stored", report.skipped, saved.quads());
}

/// The screen: the locomotives on the roster.
pub struct Screen {
    roster: Vec<String>,
}

/// The types that a load reports, of variables with their names.
pub fn accepted(saved: &SavedRun, names: &[(u8, &str)]) {
    println!("load     accepted");
    let width = names.iter().map(|(_, name)| name.len()).max().unwrap_or(0) + 1;
    for (variable, name) in names {
        let found = saved.variable_type(*variable);
        println!("         {name:width$} {}", found.map_or("-".to_owned(), |t| t.to_string()));
    }
}

/// A load that was refused, and what the engine suggests.
pub fn refused(refusal: Refusal, suggestion: Suggestion, names: &[(u8, &str)]) {
    println!("load     {refusal}");
    let help = match suggestion {
        Suggestion::Accepted => "nothing: the card loads".to_owned(),
        Suggestion::None => "no single written type would do".to_owned(),
        Suggestion::Written { variable, written_type } => {
            let name = names.iter().find(|(v, _)| *v == variable).map_or("-", |(_, name)| name);
            format!("write {written_type} at {name}, and nothing else")
        }
    };
    println!("suggest  {help}");
}

impl Screen {
    /// The types that the load reports, and whether there is a bar to show.
    pub fn loaded(saved: &SavedRun, total: Option<u32>) -> Screen {
        accepted(saved, &NAMES);
        if total.is_none() {
            println!("bar      none: the script has an each block");
        }
        Screen { roster: Vec::new() }
    }

    /// A line for each locomotive that the each block has just found.
    pub fn roster(&mut self, tables: &Tables, saved: &SavedRun) {
        let bound = |variable| saved.binding(variable).and_then(|number| tables.term(number));
        if let (Some(name), Some(speed)) = (bound(CALLED), bound(FAST)) {
            let line = format!("{name} {speed}");
            if !self.roster.contains(&line) {
                println!("         roster: {line}");
                self.roster.push(line);
            }
        }
    }

    /// How a run ended.
    pub fn state(&self, steps: u32, state: State, tables: &Tables) {
        let state = match state {
            State::Wanted(graph) => {
                let graph = tables.term(graph).as_ref().map_or(String::new(), Term::to_string);
                format!("wants {graph}")
            }
            other => other.to_string(),
        };
        println!("run      {steps} steps, {state}");
    }

    /// How far the script has come, where its steps are known beforehand.
    pub fn bar(&self, taken: u32, total: Option<u32>) {
        if let Some(total) = total {
            let [done, left] = [taken, total - taken].map(|steps| steps as usize);
            println!("bar      [{}{}] {taken} of {total}", "#".repeat(done), "-".repeat(left));
        }
    }

    /// The last line.
    pub fn end(&self) {
        println!("roster   {} locomotives", self.roster.len());
    }
}
