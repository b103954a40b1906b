//! Refusals 2 to 9: what run and page calls ask of terms, schema and script too.

use crate::limits::{ENTRIES, TERMS};
use crate::reader::read_script;
use crate::refusal::{demand, Refusal};
use crate::rules::Env;
use crate::schema::Schema;
use crate::scope;
use crate::script::Script;
use crate::terms::{all_different, read_listed, Terms};

/// A way to work out the types of a script past refusal 7: the greatest typing, or refusal 8 or 9.
pub type Typer = fn(&Script, &Terms) -> Result<Env, Refusal>;

/// Terms, schema and script that load.
#[derive(Clone, Debug)]
pub struct Loaded {
    /// The schema.
    pub schema: Schema,
    /// The terms as loading numbers them.
    pub terms: Terms,
    /// The script.
    pub script: Script,
    /// The types worked out.
    pub types: Env,
}

/// Schema, terms as loading numbers them, and script.
pub type Parts = (Schema, Terms, Script);

/// Checks 2 to 7 in their order, each as a whole pass.
pub fn read(terms: &[u8], schema: &[u8], script: &[u8]) -> Result<Parts, Refusal> {
    let listed = read_listed(terms)?;
    all_different(&listed)?;
    let schema = Schema::read(schema)?;
    let terms = Terms::number(&listed, &schema);
    demand(terms.len() <= TERMS, 6, "limit on terms")?;
    demand(schema.properties.len() <= ENTRIES, 6, "limit on entries")?;
    let script = read_script(script, terms.len())?;
    scope::check(&script)?;
    Ok((schema, terms, script))
}

/// Checks 2 to 9.
pub fn check(typer: Typer, terms: &[u8], schema: &[u8], script: &[u8]) -> Result<Loaded, Refusal> {
    let (schema, terms, script) = read(terms, schema, script)?;
    let types = typer(&script, &terms)?;
    Ok(Loaded { schema, terms, script, types })
}
