//! How long the texts of a workload are.

use willetcoffer::limits::TEXT_WIDTH;

/// Short texts, or the same filled up in front to the longest that there may be, so that they differ at their ends alone.
#[derive(Clone, Copy, PartialEq, Eq, Debug)]
pub enum Texts {
    /// As they are.
    Short,
    /// Filled up.
    Long,
}

impl Texts {
    /// This text.
    pub fn of(self, text: &str) -> String {
        match self {
            Texts::Short => text.to_string(),
            Texts::Long => format!("{text:->TEXT_WIDTH$}"),
        }
    }
}
