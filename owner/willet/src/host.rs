//! The host of a run: it advances the season and hands in the pages that are wanted or rewritten.

use crate::args::{ScriptArgs, SourceArgs};
use crate::failure::Failure;
use crate::files::CardFile;
use crate::origin::Pages;
use crate::season::Season;
use rdf::Page;
use std::time::{SystemTime, UNIX_EPOCH};
use willetcoffer::State;

/// A season with its pages.
pub struct Host {
    pub season: Season,
    pages: Pages,
    now: Option<i64>,
    steps: u64,
}

/// What a host has to say, line by line.
pub type Say<'a> = &'a mut dyn FnMut(&str);

impl Host {
    /// Loads a card or a script. `now` stays where it is given, else the clock tells; so many steps are taken at most.
    pub fn load(script: &ScriptArgs, source: &SourceArgs, now: Option<i64>, steps: u64) -> Result<Host, Failure> {
        let season = Season::load(&script.file.display().to_string(), CardFile::read(script)?)?;
        let pages = Pages::new(source, season.legend.prefixes.clone())?;
        Ok(Host { season, pages, now, steps })
    }

    fn now(&self) -> i64 {
        let clock = || SystemTime::now().duration_since(UNIX_EPOCH).map_or(0, |since| since.as_secs() as i64);
        self.now.unwrap_or_else(clock)
    }

    /// Goes on until no page is wanted: the script has ended, waits, or its steps are spent.
    pub fn advance(&mut self, say: Say) -> Result<State, Failure> {
        loop {
            let state =
                self.season.advance(self.now(), self.steps).map_err(|refusal| Failure::refused("run", refusal))?;
            let State::Wanted(graph) = state else { return Ok(state) };
            let iri = self.season.iri(graph);
            say(&format!("wants {iri}"));
            let page = self.pages.page(&iri)?;
            self.take(graph, &iri, &page, say)?;
        }
    }

    fn take(&mut self, graph: u16, iri: &str, page: &Page, say: Say) -> Result<(), Failure> {
        for warning in &page.warnings {
            say(&format!("warning: {iri}: {warning}"));
        }
        for left in &page.left_out {
            say(&format!("left out: {left}"));
        }
        let taken = self.season.page(graph, &page.bytes)?;
        let records = page.taken.len();
        say(&format!("page  {iri}: {records} records, {} skipped, {} quads stored", taken.skipped, taken.quads));
        Ok(())
    }

    /// Looks at the fetched pages again, takes in those that were rewritten, and says whether any was.
    pub fn refresh(&mut self, say: Say) -> Result<bool, Failure> {
        let mut changed = false;
        for graph in self.season.fetched() {
            let iri = self.season.iri(graph);
            if let Some(page) = self.pages.rewritten(&iri)? {
                say(&format!("rewritten {iri}"));
                self.take(graph, &iri, &page, say)?;
                changed = true;
            }
        }
        Ok(changed)
    }
}

/// A state in words.
pub fn state_in_words(state: State, steps: u64) -> String {
    let state = match state {
        State::Ended => "ended",
        State::Wanted(_) => "wants a page",
        State::Waiting => "waiting for a change of the pages",
        State::Spent => "stopped, its steps are spent",
    };
    format!("{state} after {steps} {}", if steps == 1 { "step" } else { "steps" })
}
