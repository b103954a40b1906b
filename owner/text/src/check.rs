//! The types of a script's variables, as the proved engine works them out.

use crate::clash;
use crate::diagnostic::Diagnostic;
use crate::encode::encode;
use crate::suggest;
use crate::tree::Source;
use willetcoffer::{Refusal, SavedRun, Tables, Type};

/// Loads the card of a source: the saved run with its types, or the refusal.
pub(crate) fn load(source: &Source) -> Result<SavedRun, Refusal> {
    let card = encode(source).map_err(|error| Refusal::from_number(error.refusal))?.card;
    card.load(&mut Tables::new())
}

/// The type of each variable, by number, with its name; or what is wrong, and where.
pub fn check(source: &Source) -> Result<Vec<(String, Type)>, Diagnostic> {
    let encoded = encode(source)?;
    match encoded.card.load(&mut Tables::new()) {
        Ok(saved) => Ok(saved.types().map(|(number, found)| (encoded.legend.name(number), found)).collect()),
        Err(Refusal::NoTyping) => Err(clash::explain(source)),
        Err(Refusal::NoGreatest) => Err(suggest::explain(source)),
        Err(other) => {
            let span = source.script.span.clone();
            Err(Diagnostic::new(other.number(), span, other.to_string(), "the card of this script"))
        }
    }
}
