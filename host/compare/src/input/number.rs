//! The text of a number, by itself.

use super::Input;
use crate::call::number::{Read, Text};
use crate::call::Engine;
use crate::count::Coverage;
use crate::draw::numbers::text;
use crate::judge::numbers::judge;
use crate::judge::Difference;
use crate::run::Plan;
use willetcoffer::limits::NUMBER_RECORD_WIDTH;

impl Input for Text {
    type Given = Read;

    const WORD: &'static str = "number";

    fn planned(plan: &Plan) -> u64 {
        plan.numbers
    }

    fn draw(seed: u64, index: u64) -> Text {
        text(seed, index)
    }

    fn words(&self) -> String {
        let Text { bytes, record, due } = self;
        let due = due.map_or(String::new(), |due| format!("  written for {due:?}\n"));
        format!("number \"{}\", {} bytes\n  a record of {record} bytes\n{due}", bytes.escape_ascii(), bytes.len())
    }

    fn call(&self, engine: &dyn Engine) -> Read {
        self.read(engine)
    }

    fn judge(&self, engines: [&dyn Engine; 2]) -> Result<Read, Difference> {
        judge(self, engines)
    }

    fn count(&self, read: &Read, coverage: &mut Coverage) {
        coverage.number(self, read);
    }

    fn pieces(&self) -> Vec<&[u8]> {
        self.bytes.chunks(1).collect()
    }

    fn with(&self, bytes: Vec<u8>) -> Text {
        Text { bytes, due: None, ..*self }
    }

    fn fitting(&self) -> Text {
        Text { record: NUMBER_RECORD_WIDTH, ..self.clone() }
    }
}
