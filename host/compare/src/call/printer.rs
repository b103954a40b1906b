//! The type printer as a program.

use super::program::Program;
use crate::judge::{Breach, Difference};
use std::path::PathBuf;

/// The program and how many cases it has seen.
pub struct Printer {
    program: Program,
    /// Each so-manieth case is given to it.
    pub every: u64,
    /// Cases given to it.
    pub seen: u64,
}

impl Printer {
    /// A printer that is given each `every`-th case.
    pub fn new(program: PathBuf, every: u64) -> Printer {
        Printer { program: Program::new(program, Breach::Printer), every: every.max(1), seen: 0 }
    }

    /// Compares its output on this input, and on the same in the widths of before.
    pub fn compare(&mut self, input: &[u8], before: Option<&[u8]>) -> Result<(), Difference> {
        self.seen += 1;
        self.compare_one(input)?;
        before.map_or(Ok(()), |before| self.compare_one(before)).map_err(|difference| {
            let what = format!("in the widths of before: {}", difference.what);
            Difference { what, ..difference }
        })
    }

    fn compare_one(&self, input: &[u8]) -> Result<(), Difference> {
        self.program.compare(input, &second::print_types(input))
    }
}
