//! Refusals: the number a call returns, and why.

/// A refusal: its number, and for the coverage table the condition that was met. The reason is never part of a result.
#[derive(Clone, Copy, PartialEq, Eq, Debug)]
pub struct Refusal {
    /// The number in document 01's table.
    pub number: u32,
    /// The condition, in a few words.
    pub why: &'static str,
}

/// A refusal of this number for this reason.
pub fn refuse<T>(number: u32, why: &'static str) -> Result<T, Refusal> {
    Err(Refusal { number, why })
}

/// Refuses unless the condition holds.
pub fn demand(holds: bool, number: u32, why: &'static str) -> Result<(), Refusal> {
    if holds {
        Ok(())
    } else {
        refuse(number, why)
    }
}
