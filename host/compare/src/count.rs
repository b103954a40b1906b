//! Counting: what was met, and whether it was met often enough.

mod coverage;
pub mod kinds;
mod numbers;
mod published;
mod schemas;
pub mod texts;

pub use coverage::Coverage;

use crate::call::{Answer, Call, Made};
use crate::draw::is_block;
use crate::draw::odd::Odd;
use crate::draw::ranks::turn;
use crate::judge::ranks::each_once;
use second::edge::Look;
use second::evaluator::Line;
use second::note::Note;
use second::script::Script;
use willetcoffer::limits::RANKS_WIDTH;
use willetcoffer::page::records;
use willetcoffer::ranks::BUILT_IN;
use willetcoffer::{SavedRun, State, Suggestion};

/// What a call was made on and what came of it.
pub struct Met<'a> {
    /// The call.
    pub call: &'a Call,
    /// What it gave.
    pub answer: &'a Answer,
    /// Why it was refused.
    pub why: &'a str,
    /// Whether its steps are held to the total of a script without an each block.
    pub exact: bool,
    /// What it met on its way.
    pub notes: Vec<Note>,
    /// What looked at texts at an edge, with the byte.
    pub looks: Vec<(Look, usize)>,
}

/// What sort of ranks these are.
pub fn sort_of(ranks: &[u8]) -> &'static str {
    let mut turned = ranks.to_vec();
    turn(&mut turned);
    match ranks.len() {
        94 => "of 94 bytes",
        96 => "of 96 bytes",
        RANKS_WIDTH if ranks == BUILT_IN => "built in",
        RANKS_WIDTH if turned == BUILT_IN => "built in, turned round",
        RANKS_WIDTH if ranks.is_sorted() && each_once(ranks) => "by byte",
        RANKS_WIDTH if each_once(ranks) => "others",
        RANKS_WIDTH => match ranks.iter().max() {
            Some(95) => "with a rank of 95",
            Some(96..) => "with a rank over 95",
            _ => "with a rank twice, one missing",
        },
        _ => "of another length",
    }
}

impl Coverage {
    /// Counts the ranks that a call was lent, whether they are those lent at the load, and where 1 came before 21.
    pub fn ranks(&mut self, made: &Made, at_load: &[u8]) {
        let ranks = &made.before.ranks;
        let section = match made.call {
            Call::Load => "ranks of a load",
            Call::Run { .. } => "ranks of a run",
            Call::Page { .. } => "ranks of a page",
            Call::Publish { .. } | Call::Total { .. } | Call::Suggest { .. } => return,
        };
        self.add(section, sort_of(ranks));
        match made.answers[0].code {
            1 if ranks.len() == RANKS_WIDTH && !each_once(ranks) => self.add("1 before 21", made.call.name()),
            0 if *made.call != Call::Load => {
                self.add("ranks lent", if ranks == at_load { "as at the load" } else { "others than at the load" });
            }
            _ => {}
        }
    }

    /// Counts a call.
    pub fn call(&mut self, Met { call, answer, why, exact, notes, looks }: &Met) {
        self.add(call.name(), format!("{:02}", answer.code));
        for (section, key) in notes.iter().map(|note| note.name()) {
            self.add(section, key);
        }
        for (look, byte) in looks {
            self.add(look.name(), byte.to_string());
        }
        if answer.code != 0 {
            self.add("reasons", format!("{} {} {why}", call.name(), answer.code));
        }
        if let Some(report) = answer.ran() {
            let name = match report.state {
                State::Ended => "ended",
                State::Wanted(_) => "wanted",
                State::Waiting => "waiting",
                State::Spent => "spent",
            };
            self.add("state", name);
            if *exact {
                self.add("steps held to a total", name);
            }
        }
        if let (Call::Page { page, .. }, Some(report)) = (call, answer.paged()) {
            for record in records(page) {
                self.add("page record", format!("{:x}", record[0]));
            }
            self.add("page", if report.skipped > 0 { "with skipped records" } else { "without skipped records" });
        }
    }

    /// Counts what came of a change behind the engines' backs.
    pub fn tampered(&mut self, label: &str, code: u32) {
        let verdict = match code {
            1 | 21 => "not looked at",
            10 => "unsound",
            _ => "sound",
        };
        self.add("tampered", format!("{label} {verdict}"));
    }

    /// Counts what came of a call that was lent something odd.
    pub fn odd(&mut self, odd: Odd, call: &Call, code: u32) {
        let verdict = match code {
            0 => "taken",
            2 | 4 | 10 | 13 => "refused",
            _ => "not looked at",
        };
        match odd.edge() {
            Some(edge) => self.add("byte changed", format!("{edge} of {} {verdict}", odd.label())),
            None => self.add("odd", format!("{} in a {} {code:02}", odd.label(), call.name())),
        }
    }

    /// Counts where the each blocks of a script stand whose total was told.
    pub fn total(&mut self, script: &Script) {
        let mut each = script.nodes.iter().map(|node| is_block(node, true));
        let place = match (each.next(), each.any(|is_each| is_each)) {
            (Some(true), _) => "each block at the root",
            (_, true) => "each block below the root only",
            _ => "no each block",
        };
        self.add("total of", place);
    }

    /// Counts what a suggestion says, and what it names beside which open variables, in order.
    pub fn suggested(&mut self, call: &Call, answer: &Answer, open: &[(u8, usize)]) {
        self.add("suggest report of", call.report().to_string());
        let Some(suggestion) = answer.suggested() else { return };
        let said = match suggestion {
            Suggestion::Accepted => "accepted",
            Suggestion::Written { .. } => "written",
            Suggestion::None => "none",
        };
        self.add("suggestion", said);
        if suggestion != Suggestion::Accepted {
            self.add("suggestion", "in the place of 9");
        }
        if let Suggestion::Written { variable, written_type } = suggestion {
            self.add("suggested variable", variable.to_string());
            self.add("suggested code", written_type.code().to_string());
            let lowest = open.first().is_some_and(|(lowest, _)| *lowest == variable);
            self.add("suggested", if lowest { "at the lowest open variable" } else { "after lower open variables" });
        }
    }

    /// Counts what a load gave to a script of this sort.
    pub fn load(&mut self, sort: &str, answer: &Answer) {
        let verdict = match answer.code {
            0 => "accepted".to_string(),
            code => format!("refused {code}"),
        };
        self.add("script", format!("{sort} {verdict}"));
    }

    /// Counts the reported types of an accepted script.
    pub fn types(&mut self, saved: &SavedRun) {
        for (_, t) in saved.types() {
            self.add("type", t.to_string());
        }
    }

    /// Counts the kinds of records of an accepted script.
    pub fn kinds(&mut self, script: &Script) {
        for kind in kinds::kinds(script) {
            self.add("kind", format!("{kind:x}"));
        }
        for (each, name) in [(true, "73 each"), (false, "73 once")] {
            if script.nodes.iter().any(|node| is_block(node, each)) {
                self.add("kind", name);
            }
        }
    }

    /// Counts a line of an evaluator, and what the count of its tuple has noted.
    pub fn line(&mut self, line: Line, notes: &[Note]) {
        let name = match line {
            Line::Evaluated(holds, _) => holds.to_string(),
            other => other.to_string(),
        };
        self.add("evaluator", name);
        for note in notes.iter().filter(|note| Note::OF_COUNTS.contains(note)) {
            let (section, key) = note.name();
            self.add(section, key);
        }
    }

    /// Counts what a type printer wrote.
    pub fn printed(&mut self, text: &str) {
        let number = text.strip_prefix("refused ").map_or(0, |n| n.trim_end().parse().unwrap_or(0));
        self.add("printer", format!("{number:02}"));
    }
}
