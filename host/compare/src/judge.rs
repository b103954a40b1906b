//! Judging: what two engines owe each other on one call, and what either of them promises.

pub mod numbers;
mod old;
pub mod published;
pub mod ranks;
pub mod schemas;
mod stores;
pub mod suggestions;
mod whole;

pub use stores::Stores;

use crate::call::{Call, Made};
use crate::draw::is_block;
use second::calls::FAULT;
use second::script::{Kind, Script};
use std::collections::BTreeMap;
use std::panic::{catch_unwind, AssertUnwindSafe};
use willetcoffer::{RunReport, SavedRun, State};

/// What was broken.
#[derive(Clone, Copy, PartialEq, Eq, Debug)]
pub enum Breach {
    /// Numbers or reports differ.
    Answers,
    /// Tables or saved runs differ.
    Tables,
    /// A refused call changed something that it was lent.
    Kept,
    /// 1 or 21 where it is not due, or something else where it is.
    Lent,
    /// Something else than less on strings goes by the ranks.
    Turned,
    /// A card or page of before was taken for something else.
    Old,
    /// A card's terms or a page's triples are not in the tables as they were given.
    Whole,
    /// The machine met a fault.
    Fault,
    /// Refusal 10 of a station that nobody tampered with.
    Unsound,
    /// A run's report is none, or its steps do not go with budget and state.
    Steps,
    /// Steps, what is left on the stack and the end do not go with the total of a script without an each block.
    Total,
    /// A written type is named that would not do, or a lower one would; or something else is said than the load.
    Suggested,
    /// Two stations with the same terms by number and the same quads have other bytes.
    Stores,
    /// Another page than the graph's triples in rising order of their bytes, or another length told; 22 or 23 where it is not due, or
    /// something else where it is.
    Published,
    /// Bytes after what was written were changed.
    Rest,
    /// A published page that was taken in at once was refused or skipped something, or the store is not as it was.
    TakenIn,
    /// A graph has more bytes than the page that filled it.
    Fits,
    /// Two stations that hold the same triples of a graph publish other bytes.
    Alike,
    /// A text or a page did not give what it was written for.
    Written,
    /// A record that no reading of its text gives: no number's, or one of the other kind.
    Record,
    /// The text that str gives for a number that was read is read otherwise.
    Again,
    /// 13 where it is not due, or something else where it is.
    Page,
    /// Entries that are no schema of the page's subjects, or a report that counts otherwise.
    Entries,
    /// A load refuses a schema that was gathered.
    Loads,
    /// What the type printers wrote differs.
    Printer,
    /// What an evaluator of tuples wrote is not what the definitions give.
    Evaluator,
    /// An engine panicked.
    Panic,
}

/// Two engines that disagree, or one that breaks a promise.
#[derive(Clone, Debug)]
pub struct Difference {
    /// What was broken.
    pub breach: Breach,
    /// What was called and what differs.
    pub what: String,
}

impl Difference {
    /// A difference.
    pub fn new(breach: Breach, what: String) -> Difference {
        Difference { breach, what }
    }
}

fn differs<T>(breach: Breach, what: String) -> Result<T, Difference> {
    Err(Difference::new(breach, what))
}

/// An engine that panics is a difference too.
pub(crate) fn unless_panicked<T>(work: impl FnOnce() -> Result<T, Difference>) -> Result<T, Difference> {
    let panicked = || differs(Breach::Panic, "an engine panicked".to_string());
    catch_unwind(AssertUnwindSafe(work)).unwrap_or_else(|_| panicked())
}

/// What counts of the calls so far.
#[derive(Clone, Debug, Default)]
pub struct History {
    /// Whether the station was tampered with since its load.
    pub tampered: bool,
    /// The loaded script, if it has no each block.
    pub once: Option<Once>,
    /// Steps taken since the load.
    pub steps: u64,
    /// The stores met since the load.
    pub stores: Stores,
    /// How the last call came to a store that was there before, if it is a page that did.
    pub alike: Option<&'static str>,
    /// How many bytes the page had that filled each graph last.
    pub filled: BTreeMap<u64, usize>,
}

/// A script with no each block: how many records of kinds 71 to 74 stand from each one down, by its offset.
#[derive(Clone, Debug)]
pub struct Once(BTreeMap<u16, u64>);

impl Once {
    /// None where there is an each block.
    pub fn of(script: &Script) -> Option<Once> {
        let nodes = &script.nodes;
        if nodes.iter().any(|node| is_block(node, true)) {
            return None;
        }
        let mut below = vec![1; nodes.len()];
        // Children stand after their record, so from the last on each child is counted before its record is.
        for place in (0..nodes.len()).rev() {
            below[place] += match &nodes[place].kind {
                Kind::Success => 0,
                Kind::FromNamed(_, then) => below[*then],
                Kind::Block(block) => below[block.then],
                Kind::Sequence(first, second) => below[*first] + below[*second],
            };
        }
        Some(Once(nodes.iter().map(|node| node.offset).zip(below).collect()))
    }

    /// The records of the whole script.
    pub fn records(&self) -> u64 {
        self.0.len() as u64
    }

    /// The records below what a saved run has on its stack.
    fn left(&self, saved: &[u8]) -> Option<u64> {
        let saved = SavedRun::from_bytes(saved.try_into().ok()?);
        saved.stack().map(|item| self.0.get(&item.offset).copied()).sum()
    }
}

/// Compares everything that the two calls gave, and holds them to their promises; `tampered` says whether the station was
/// tampered with for this call.
pub fn judge(made: &Made, tampered: bool, history: &mut History) -> Result<(), Difference> {
    let [answer, other] = &made.answers;
    let [station, second] = &made.after;
    let tampered = tampered || history.tampered;
    if let Some(what) = answer.first_difference(other) {
        return differs(Breach::Answers, what);
    }
    if let Some(place) = station.first_difference(second) {
        return differs(Breach::Tables, place);
    }
    if answer.code != 0 && made.before != station {
        return differs(Breach::Kept, format!("refused {} and changed a table", answer.code));
    }
    ranks::refused_first(made)?;
    old::refused(made)?;
    if answer.code >= FAULT {
        return differs(Breach::Fault, format!("fault {}", answer.code - FAULT));
    }
    if answer.code == 10 && !tampered {
        return differs(Breach::Unsound, "refusal 10 without tampering".to_string());
    }
    history.alike = None;
    match made.call {
        Call::Load if answer.code == 0 => {
            history.steps = 0;
            history.filled.clear();
        }
        Call::Page { graph, page, .. } if answer.code == 0 && !tampered => {
            history.filled.insert(*graph, page.len());
        }
        _ => {}
    }
    // A total and a suggestion are not lent the tables.
    if answer.code == 0 && made.call.is_lent() {
        whole::kept_whole(made)?;
        history.alike = history.stores.meet(made.call, station)?;
    }
    if let (Call::Run { budget, .. }, 0) = (made.call, answer.code) {
        ran(answer.ran(), *budget, history)?;
    }
    match &history.once {
        Some(once) if !tampered => exact(made, once, history.steps),
        _ => Ok(()),
    }
}

/// The promises of a run that was not refused.
fn ran(report: Option<RunReport>, budget: u64, history: &mut History) -> Result<(), Difference> {
    let Some(RunReport { steps, state }) = report else {
        return differs(Breach::Steps, "a report that no run writes".to_string());
    };
    let steps = u64::from(steps);
    history.steps += steps;
    if steps > budget || (state == State::Spent && steps != budget) {
        return differs(Breach::Steps, format!("{steps} steps of {budget}, {state}"));
    }
    Ok(())
}

/// After any call on a script without an each block: the steps so far and the records below the stack are the script's records;
/// a run has ended exactly when as many steps are taken, and a total tells as many.
fn exact(made: &Made, once: &Once, steps: u64) -> Result<(), Difference> {
    let [answer, _] = &made.answers;
    let records = once.records();
    let broken = |what: String| Err(Difference::new(Breach::Total, format!("{what}, of {records} records")));
    let left = once.left(&made.after[0].saved);
    if left.map(|left| steps + left) != Some(records) {
        return broken(format!("{steps} steps taken and {left:?} records left"));
    }
    match made.call {
        Call::Run { .. } if answer.ran().is_some_and(|r| (r.state == State::Ended) != (steps == records)) => {
            broken(format!("{steps} steps taken, {:?}", answer.ran()))
        }
        Call::Total { .. } if answer.total().is_some_and(|total| u64::from(total) != records) => {
            broken(format!("a total of {:?}", answer.total()))
        }
        _ => Ok(()),
    }
}
