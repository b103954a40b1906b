//! The page that a schema is gathered from, by itself.

use super::Input;
use crate::call::schema::{Gathered, SchemaPage};
use crate::call::Engine;
use crate::count::Coverage;
use crate::draw::schemas::page;
use crate::judge::schemas::judge;
use crate::judge::Difference;
use crate::run::Plan;
use second::page::read;
use second::term::{trim, Term};
use willetcoffer::limits::{SCHEMA_REPORT_WIDTH, SCHEMA_WIDTH};
use willetcoffer::page::records;

/// A record in words.
fn record(bytes: &[u8]) -> String {
    let triple = read(bytes).ok().and_then(|mut triples| triples.pop());
    triple.map_or(format!("bad {bytes:02x?}"), |triple| {
        let [subject, property] = [triple.subject, triple.property].map(|uri| trim(&uri).escape_ascii().to_string());
        let object = match triple.object {
            Term::Uri(text) => trim(&text).escape_ascii().to_string(),
            other => format!("{:02x?}", other.record()),
        };
        format!("{subject} {property} {object}")
    })
}

impl Input for SchemaPage {
    type Given = Gathered;

    const WORD: &'static str = "schema";

    fn planned(plan: &Plan) -> u64 {
        plan.schemas
    }

    fn draw(seed: u64, index: u64) -> SchemaPage {
        page(seed, index)
    }

    fn words(&self) -> String {
        let [page, schema, report] = [&self.page, &self.schema, &self.report].map(Vec::len);
        let head = format!("schema of a page of {page} bytes, into {schema} and {report}\n");
        head + &records(&self.page).map(|bytes| format!("  {}\n", record(bytes))).collect::<String>()
    }

    fn call(&self, engine: &dyn Engine) -> Gathered {
        self.gather(engine)
    }

    fn judge(&self, engines: [&dyn Engine; 2]) -> Result<Gathered, Difference> {
        judge(self, engines)
    }

    fn count(&self, gathered: &Gathered, coverage: &mut Coverage) {
        coverage.schema(self, gathered);
    }

    fn pieces(&self) -> Vec<&[u8]> {
        records(&self.page).collect()
    }

    fn with(&self, page: Vec<u8>) -> SchemaPage {
        SchemaPage { page, due: None, ..self.clone() }
    }

    fn fitting(&self) -> SchemaPage {
        let (schema, report) = (vec![0xaa; SCHEMA_WIDTH], vec![0xaa; SCHEMA_REPORT_WIDTH]);
        SchemaPage { schema, report, ..self.clone() }
    }
}
