//! What an engine owes by itself about the written type that it names: its own loads say what would do.

use super::{Breach, Difference};
use crate::call::{Call, Engine, Made, Station};
use crate::records::open_pairs;
use willetcoffer::{Suggestion, Type};

/// Holds each engine's suggestion to its own loads. The call was judged, so that both have answered the same.
pub fn held(made: &Made, engines: [&dyn Engine; 2]) -> Result<(), Difference> {
    let answer = &made.answers[0];
    if !matches!(made.call, Call::Suggest { .. }) {
        return Ok(());
    }
    if answer.code != 0 && answer.report.iter().any(|byte| *byte != 0xaa) {
        return Err(Difference::new(Breach::Kept, format!("refused {} and changed the report", answer.code)));
    }
    // Where 1 is due was asked before.
    if answer.code == 1 {
        return Ok(());
    }
    for engine in engines {
        // Buffers that fit, whatever the case has.
        let mut station = Station::new(made.before.card.clone(), 0);
        let broken = match station.call(engine, &Call::Load).code {
            9 if answer.code == 0 => tried(engine, station, answer.suggested()),
            0 if answer.suggested() == Some(Suggestion::Accepted) => None,
            code if code == answer.code && code != 0 && code != 9 => None,
            code => Some(format!("a load gives {code}, and {answer:x?} is said")),
        };
        if let Some(what) = broken {
            return Err(Difference::new(Breach::Suggested, format!("{}: {what}", engine.name())));
        }
    }
    Ok(())
}

/// How what is said of a card with 9 differs from the first type, by variable and code, with which it loads.
fn tried(engine: &dyn Engine, mut station: Station, said: Option<Suggestion>) -> Option<String> {
    let (variable, written_type) = match said {
        Some(Suggestion::Written { variable, written_type }) => (Some(variable), Some(written_type)),
        Some(Suggestion::None) => (None, None),
        other => return Some(format!("{other:?} is said in the place of 9")),
    };
    for (open, place) in open_pairs(&station.card.script) {
        for t in Type::all() {
            let is_named = (Some(open), Some(t)) == (variable, written_type);
            station.card.script[place] = t.code();
            match (station.call(engine, &Call::Load).code, is_named) {
                (0, true) => return None,
                (0, false) => return Some(format!("{t} at variable {open} loads, where {said:?} is said")),
                (code, true) => return Some(format!("{t} at variable {open} is named, and is refused with {code}")),
                (_, false) => {}
            }
        }
        station.card.script[place] = 0;
    }
    variable.map(|variable| format!("variable {variable} is named, and is not open"))
}
