//! Input after input: what calls without a station are lent, given to both engines.

use super::{indented, quietly, Compare, Plan};
use crate::call::Engine;
use crate::input::Input;
use crate::judge::{unless_panicked, Breach, Difference};
use crate::shrink::shrink_input;

/// An input in words, with what each engine gives.
fn describe<I: Input>(input: &I, engines: [&dyn Engine; 2]) -> String {
    let mut words = input.words();
    for engine in engines {
        let told = unless_panicked(|| Ok(input.call(engine))).map_or("a panic".to_string(), |given| given.to_string());
        let why = engine.why();
        words += &format!("  {}: {told}{}{why}\n", engine.name(), if why.is_empty() { "" } else { ", " });
    }
    words
}

impl Compare<'_> {
    /// Gives both engines the inputs of a plan; how many differed.
    pub fn inputs<I: Input>(&mut self, plan: &Plan) -> usize {
        let mut differences = 0;
        for index in plan.from..plan.from + I::planned(plan) {
            let input = I::draw(plan.seed, index);
            if plan.printed {
                print!("{}", describe(&input, self.engines));
            }
            match self.input(&input) {
                Ok(given) => input.count(&given, &mut self.coverage),
                Err(difference) => {
                    self.tell(I::WORD, plan.seed, index, &difference);
                    print!("{}", self.smaller_input(&input, &difference));
                    differences += 1;
                }
            }
            if differences >= plan.differences {
                break;
            }
        }
        differences
    }

    /// What both give for an input, or what it shows.
    pub fn input<I: Input>(&self, input: &I) -> Result<I::Given, Difference> {
        unless_panicked(|| input.judge(self.engines))
    }

    /// The input of a difference, made smaller, in words. What a smaller one would have been written for nobody knows, so that one which shows
    /// only by that stays as it is.
    pub fn smaller_input<I: Input>(&self, input: &I, difference: &Difference) -> String {
        let shows = |input: &I| self.input(input).is_err_and(|other| other.breach == difference.breach);
        let cut = || shrink_input(input, &shows);
        let small = if difference.breach == Breach::Panic { quietly(cut) } else { cut() };
        let heads = format!("  smaller, {} bytes of {}:\n", small.length(), input.length());
        heads + &indented(&describe(&small, self.engines))
    }
}
