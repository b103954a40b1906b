//! What a suggest call says of a card.

use crate::limits::{SUGGEST_REPORT_WIDTH, VARIABLE_LIMIT};
use crate::types::Type;

/// The single written type with which a script that a load refuses with 9 would load.
#[derive(Clone, Copy, PartialEq, Eq, Hash, Debug)]
pub enum Suggestion {
    /// The script loads as it is.
    Accepted,
    /// This type, written at this variable with nothing else changed, would do; no lower variable or code would.
    Written {
        /// The variable, which is open: a pair binds it with no written type.
        variable: u8,
        /// The type to write.
        written_type: Type,
    },
    /// No single written type would do.
    None,
}

impl Suggestion {
    /// Its number in a report: 0 to 2.
    pub const fn number(self) -> u8 {
        match self {
            Suggestion::Accepted => 0,
            Suggestion::Written { .. } => 1,
            Suggestion::None => 2,
        }
    }

    /// Reads a report's bytes: number (1), variable (1), type code (1), zero (1). None for bytes that no suggest call writes, whatever
    /// their length.
    pub fn from_bytes(bytes: &[u8]) -> Option<Suggestion> {
        let [number, variable, code, 0]: [u8; SUGGEST_REPORT_WIDTH] = bytes.try_into().ok()? else { return None };
        match (number, variable, code) {
            (0, 0, 0) => Some(Suggestion::Accepted),
            (1, ..) if usize::from(variable) < VARIABLE_LIMIT => {
                Type::from_code(code).map(|written_type| Suggestion::Written { variable, written_type })
            }
            (2, 0, 0) => Some(Suggestion::None),
            _ => None,
        }
    }
}
