//! The evaluators of tuples: those of the engines, and one as a program, compared with the definitions.

use super::program::Program;
use super::Engine;
use crate::count::Coverage;
use crate::judge::{Breach, Difference};
use second::evaluator::{each_line, Line, DEFINED};
use second::note::take_notes;
use std::path::PathBuf;

/// Which cases are given to the evaluators, and the program, where there is one.
pub struct Evaluator {
    /// The program.
    pub program: Option<Program>,
    /// Each so-manieth case is given to them.
    pub every: u64,
    /// Tuples given to them.
    pub tuples: u64,
}

impl Evaluator {
    /// The engines' evaluators, and this program, given each `every`-th case.
    pub fn new(program: Option<PathBuf>, every: u64) -> Evaluator {
        let program = program.map(|path| Program::new(path, Breach::Evaluator));
        Evaluator { program, every: every.max(1), tuples: 0 }
    }

    /// Compares what they write on this input with what the definitions give, and counts that.
    pub fn compare(
        &mut self,
        engines: [&dyn Engine; 2],
        input: &[u8],
        coverage: &mut Coverage,
    ) -> Result<(), Difference> {
        let mut expected = String::new();
        take_notes();
        each_line(DEFINED, input, &mut |line| {
            self.tuples += u64::from(matches!(line, Line::Bad | Line::Evaluated(..)));
            coverage.line(line, &take_notes());
            expected += &format!("{line}\n");
        });
        for engine in engines {
            if let Some(text) = engine.evaluate(input).filter(|text| *text != expected) {
                let what = format!("evaluator of {}: {text:?}, by definition: {expected:?}", engine.name());
                return Err(Difference::new(Breach::Evaluator, what));
            }
        }
        self.program.as_ref().map_or(Ok(()), |program| program.compare(input, &expected))
    }
}
