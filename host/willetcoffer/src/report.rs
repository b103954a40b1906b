//! What run and page calls report.

use crate::limits::{PAGE_REPORT_WIDTH, RUN_REPORT_WIDTH};
use std::fmt;

/// How a run call ended.
#[derive(Clone, Copy, PartialEq, Eq, Hash, Debug)]
pub enum State {
    /// The script has ended.
    Ended,
    /// The page of this graph, a term number, is wanted.
    Wanted(u16),
    /// A once block has no answer yet: a page may bring one.
    Waiting,
    /// As many steps as the budget were taken, and the script can go on.
    Spent,
}

impl State {
    /// Its number in a report: 0 to 3.
    pub const fn number(self) -> u8 {
        match self {
            State::Ended => 0,
            State::Wanted(_) => 1,
            State::Waiting => 2,
            State::Spent => 3,
        }
    }

    /// The state of this number; the graph counts where one is wanted.
    pub fn from_number(number: u8, graph: u16) -> Option<State> {
        [State::Ended, State::Wanted(graph), State::Waiting, State::Spent].into_iter().find(|s| s.number() == number)
    }
}

impl fmt::Display for State {
    fn fmt(&self, f: &mut fmt::Formatter<'_>) -> fmt::Result {
        match self {
            State::Ended => f.write_str("ended"),
            State::Wanted(graph) => write!(f, "wanted graph {graph}"),
            State::Waiting => f.write_str("waiting"),
            State::Spent => f.write_str("spent"),
        }
    }
}

/// A run call's report.
#[derive(Clone, Copy, PartialEq, Eq, Hash, Debug)]
pub struct RunReport {
    /// The steps taken.
    pub steps: u32,
    /// How it ended.
    pub state: State,
}

impl RunReport {
    /// Reads a report's bytes: steps (4), state (1), zero (1), the wanted graph or zero (2). None for bytes that no run call
    /// writes, whatever their length.
    pub fn from_bytes(bytes: &[u8]) -> Option<RunReport> {
        let [a, b, c, d, state, 0, low, high]: [u8; RUN_REPORT_WIDTH] = bytes.try_into().ok()? else { return None };
        let state = State::from_number(state, u16::from_le_bytes([low, high]))?;
        Some(RunReport { steps: u32::from_le_bytes([a, b, c, d]), state })
    }
}

/// A page call's report.
#[derive(Clone, Copy, PartialEq, Eq, Hash, Debug)]
pub struct PageReport {
    /// How many records were skipped: those with no schema entry, or with an object of another datatype.
    pub skipped: u32,
}

impl PageReport {
    /// Reads a report's bytes: the skipped count (4). None for another length.
    pub fn from_bytes(bytes: &[u8]) -> Option<PageReport> {
        let bytes: [u8; PAGE_REPORT_WIDTH] = bytes.try_into().ok()?;
        Some(PageReport { skipped: u32::from_le_bytes(bytes) })
    }
}
