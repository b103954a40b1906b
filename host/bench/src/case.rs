//! The run calls of one case of the comparison.

use compare::call::engine::fast;
use compare::call::{Call, Station};
use compare::case::Case;
use compare::count::Coverage;

/// The run calls of the case `SEED:INDEX`, each with the station that it is made on. A call on a station tampered with from which
/// the case does not go on is not among them.
pub fn run_calls(case: &str) -> Result<Vec<(Station, Call)>, String> {
    let number = |text: &str| text.parse::<u64>().map_err(|_| format!("{text} is no number"));
    let (seed, index) = case.split_once(':').ok_or("--case wants SEED:INDEX")?;
    let (engine, mut coverage) = (fast(), Coverage::default());
    let mut case = Case::new(number(seed)?, number(index)?, [&engine, &engine], &mut coverage).keeping();
    case.run().map_err(|difference| difference.what)?;
    let replay = case.kept().ok_or("no case was kept")?;
    let calls = replay.stations(&engine).into_iter().zip(replay.moves.iter().map(|m| m.call.clone()));
    Ok(calls.filter(|(_, call)| matches!(call, Call::Run { .. })).collect())
}
