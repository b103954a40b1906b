//! Which variables are bound where (refusal 7), and which are free in a script record.

use crate::refusal::{demand, Refusal};
use crate::script::{bit, Kind, NodeId, Script};

/// Refuses a variable bound by two pairs anywhere, or used outside the block that binds it.
pub fn check(script: &Script) -> Result<(), Refusal> {
    let mut seen = 0;
    for (variable, _) in script.pairs() {
        demand(seen & bit(variable) == 0, 7, "bound by two pairs")?;
        seen |= bit(variable);
    }
    demand(free(script, 0) == 0, 7, "unbound at its use")
}

/// The variables that a record and what is below it use and do not bind.
pub fn free(script: &Script, node: NodeId) -> u16 {
    match &script.nodes[node].kind {
        Kind::Success => 0,
        Kind::FromNamed(name, then) => name.variables() | free(script, *then),
        Kind::Block(block) => {
            let bound = block.pairs.iter().fold(0, |bits, (v, _)| bits | bit(*v));
            (block.query.variables() | free(script, block.then)) & !bound
        }
        Kind::Sequence(first, second) => free(script, *first) | free(script, *second),
    }
}
