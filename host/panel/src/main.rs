//! A season on one screen: a card is loaded, runs, wants a page, gets it with a record that is skipped, runs on, waits,
//! gets the page rewritten, and ends; then the same with a card whose steps are known beforehand, with a bar; then a card that is refused
//! with 9, and what the engine suggests; then the station publishes what it knows of the yard, and a second station takes that in. All calls
//! are the proved engine's.
#![forbid(unsafe_code)]

mod card;
mod show;

use show::Screen;
use std::error::Error;
use willetcoffer::{Card, Refusal, SavedRun, Suggestion, Tables};

/// Noon of the season's first day, in seconds from 1970.
const NOON: i64 = 1_772_366_400;

/// What the panel holds.
struct Panel {
    card: Card,
    tables: Tables,
    saved: SavedRun,
    screen: Screen,
    /// The steps taken since the load.
    taken: u32,
    /// How many there are in all, where the script has no each block.
    total: Option<u32>,
}

impl Panel {
    fn load(card: Card) -> Result<Panel, Refusal> {
        let mut tables = Tables::new();
        let saved = card.load(&mut tables)?;
        let total = card.total()?;
        let screen = Screen::loaded(&saved, total);
        screen.bar(0, total);
        Ok(Panel { card, tables, saved, screen, taken: 0, total })
    }

    /// Runs step by step, so that each answer of the each block is seen, until the machine stands still.
    fn run(&mut self) -> Result<(), Refusal> {
        let mut steps = 0;
        loop {
            let report = self.card.run(&self.tables, &mut self.saved, 1, NOON)?;
            steps += report.steps;
            self.screen.roster(&self.tables, &self.saved);
            if report.steps == 0 {
                self.taken += steps;
                self.screen.state(steps, report.state, &self.tables);
                self.screen.bar(self.taken, self.total);
                return Ok(());
            }
        }
    }

    fn page(&mut self, what: &str, page: &[u8]) -> Result<(), Refusal> {
        let report = self.card.page(&mut self.tables, &mut self.saved, card::YARD, page)?;
        show::taken_in(what, report, &self.saved);
        Ok(())
    }
}

fn season(card: Card) -> Result<Panel, Box<dyn Error>> {
    let mut panel = Panel::load(card)?;
    panel.run()?;
    panel.page("the yard's first page", &card::first_page()?)?;
    panel.run()?;
    panel.page("the page rewritten", &card::second_page()?)?;
    panel.run()?;
    panel.screen.end();
    Ok(panel)
}

/// The yard's graph, published, and taken in by a second station, which then publishes the same.
fn published(panel: &Panel) -> Result<(), Box<dyn Error>> {
    let page = panel.card.publish(&panel.tables, &panel.saved, card::YARD)?;
    show::published(&page);
    let (card, yard) = card::second_station()?;
    let mut tables = Tables::new();
    let mut saved = card.load(&mut tables)?;
    let report = card.page(&mut tables, &mut saved, yard, &page)?;
    show::taken_in("a second station", report, &saved);
    show::published_again(card.publish(&tables, &saved, yard)? == page);
    Ok(())
}

/// A card that is refused with 9, and the same with the suggested type written.
fn suggested() -> Result<(), Box<dyn Error>> {
    let card = card::undecided(None)?;
    let suggestion = card.suggest()?;
    if let Err(refusal) = card.load(&mut Tables::new()) {
        show::refused(refusal, suggestion, &card::UNDECIDED);
    }
    if let Suggestion::Written { variable, written_type } = suggestion {
        let saved = card::undecided(Some((variable, written_type)))?.load(&mut Tables::new())?;
        show::accepted(&saved, &card::UNDECIDED);
    }
    Ok(())
}

fn main() -> Result<(), Box<dyn Error>> {
    season(card::card()?)?;
    println!("\nthe first locomotive alone, by once blocks:");
    let panel = season(card::once_card()?)?;
    println!("\na card that can be read in two ways:");
    suggested()?;
    println!("\nwhat the station knows of the yard, for other stations:");
    published(&panel)
}
