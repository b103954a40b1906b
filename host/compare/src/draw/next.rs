//! The next call of a case.

use super::damage::damage;
use super::pages;
use super::pool::Size;
use super::rng::Rng;
use super::scripts::graphs;
use super::tamper::tamper;
use super::Draw;
use crate::call::{Answer, Call, Station};
use willetcoffer::limits::{BUDGET_LIMIT, PAGE_LIMIT, SECONDS_AFTER, SECONDS_BEFORE};
use willetcoffer::page::records;
use willetcoffer::State;

/// A value of now: mostly one of few days, now and then a limit or no dateTime.
pub(super) fn now(rng: &mut Rng) -> i64 {
    match rng.below(30) {
        0 => rng.one(&[SECONDS_AFTER + 1, -SECONDS_BEFORE - 1, i64::MAX, i64::MIN]),
        1 => rng.one(&[SECONDS_AFTER, -SECONDS_BEFORE]),
        _ => rng.below(9) as i64 * 86_400 - 345_600,
    }
}

impl Draw {
    /// The next call: now and then a page again, the wanted graph's page where one is wanted, else a run or a page.
    pub fn next_call(&mut self, station: &Station, last: Option<&Answer>) -> Call {
        let again = if self.rng.one_in(12) { self.page_again() } else { None };
        if let Some(call) = again {
            return call;
        }
        let state = last.and_then(Answer::ran).map(|report| report.state);
        let wanted = match state {
            Some(State::Wanted(graph)) => Some(usize::from(graph)),
            _ => None,
        };
        // A graph that the script's patterns ask for and that is not fetched yet.
        let fetched = station.fetched();
        let missing = self.witnesses.iter().map(|(graph, _)| *graph).find(|graph| !fetched.contains(graph));
        let page = match (wanted, missing) {
            (Some(_), _) => 80,
            (_, Some(_)) => 60,
            _ => 20 + 40 * usize::from(state == Some(State::Waiting)),
        };
        let graph = wanted.or(missing.filter(|_| self.rng.percent(70)));
        let mut call = if self.rng.percent(page) { self.page_call(station, graph) } else { self.run_call() };
        if let (Call::Run { report, .. } | Call::Page { report, .. }, true) = (&mut call, self.rng.one_in(150)) {
            *report = self.rng.one(&[0, *report - 1, *report + 1]);
        }
        call
    }

    /// A total, now and then with a report of another length.
    pub fn total_call(&mut self) -> Call {
        let mut call = Call::total();
        if let (Call::Total { report }, true) = (&mut call, self.rng.one_in(60)) {
            *report = self.rng.one(&[0, *report - 1, *report + 1]);
        }
        call
    }

    /// A suggestion, now and then with a report of another length.
    pub fn suggest_call(&mut self) -> Call {
        let mut call = Call::suggest();
        if let (Call::Suggest { report }, true) = (&mut call, self.rng.one_in(60)) {
            *report = self.rng.one(&[0, *report - 1, *report + 1]);
        }
        call
    }

    /// Tampers with the station and draws the next call on it; gives the name of the change too.
    pub fn tampered_call(&mut self, station: &mut Station, last: Option<&Answer>) -> (&'static str, Call) {
        let label = tamper(&mut self.rng, &self.pool, station);
        let mut call = self.next_call(station, last);
        if label == "crowd" && self.rng.percent(60) {
            // The last URIs of the table are not fetched.
            let graph = station.used().saturating_sub(self.rng.within(1, 4));
            call = Call::page(graph, pages::page(&mut self.rng, &self.pool, 1, 3));
        }
        (label, call)
    }

    fn run_call(&mut self) -> Call {
        let small = self.pool.size == Size::Small;
        let budget = match self.rng.below(40) {
            0 => self.rng.one(&[BUDGET_LIMIT + 1, u64::MAX, 1 << 32]),
            1 if !self.each => BUDGET_LIMIT,
            2 if small && self.rng.one_in(5) => 2_000,
            2..=4 if small => self.rng.within(50, 200) as u64,
            5..=7 => 0,
            8..=18 if small => self.rng.within(3, 30) as u64,
            _ => self.rng.within(1, 5) as u64,
        };
        Call::run(budget, now(&mut self.rng))
    }

    fn page_call(&mut self, station: &Station, wanted: Option<usize>) -> Call {
        let mut graphs = graphs(&self.pool);
        graphs.extend(self.witnesses.iter().map(|(graph, _)| graph));
        let graph = match (wanted, self.rng.pick(&graphs).copied()) {
            (Some(wanted), _) if self.rng.percent(85) => wanted,
            (_, Some(graph)) if self.rng.percent(85) => graph,
            _ => self.rng.below(station.used() + 2),
        };
        let mut page = match self.pool.size {
            Size::Full => pages::full(&mut self.rng, &self.pool),
            _ => {
                let records = self.rng.weighted(&[4, 3, 2, 2, 2, 2, 2, 2, 2, 2, 1, 1, 1, 1]);
                let many = if self.rng.one_in(40) { 60 } else { 0 };
                pages::page(&mut self.rng, &self.pool, records + many, 12)
            }
        };
        if self.rng.percent(85) {
            let leave_out = self.rng.one(&[0, 0, 10, 50]);
            for (_, triple) in self.witnesses.iter().filter(|(g, _)| *g == graph) {
                if !self.rng.percent(leave_out) {
                    page.extend(triple);
                }
            }
        }
        match self.rng.below(60) {
            0..=2 => damage(&mut self.rng, &mut page),
            3 if self.rng.one_in(8) && !page.is_empty() => page = page.repeat(PAGE_LIMIT / page.len() + 1),
            _ => {}
        }
        let mut call = Call::page(graph, page);
        if let (Call::Page { graph, .. }, true) = (&mut call, self.rng.one_in(200)) {
            *graph = self.rng.one(&[u64::MAX, 1 << 16, (1 << 16) + *graph, (1 << 32) + *graph]);
        }
        call
    }

    /// The page that some graph had last: as it is, its records mixed, or each of them twice and mixed. Their terms are numbered, so the
    /// store stays as it is.
    fn page_again(&mut self) -> Option<Call> {
        let (graph, page) = self.taken.iter().nth(self.rng.below(self.taken.len()))?;
        let mut all: Vec<&[u8]> = records(page).collect();
        let way = self.rng.below(3);
        if way == 2 && 2 * page.len() <= PAGE_LIMIT {
            all.extend_from_within(..);
        }
        if way > 0 {
            self.rng.shuffle(&mut all);
        }
        Some(Call::page(*graph as usize, all.concat()))
    }
}
