//! One written type that would do: what is named where a load refuses a script with 9.
//!
//! A variable is *open* where a pair binds it with written type 0. Named is the lowest open variable for which there is a type that,
//! written at it with nothing else changed, lets the script load, and of these types the one of the lowest code.

use crate::check::{check, read, Typer};
use crate::limits::SUGGEST_REPORT;
use crate::refusal::Refusal;
use crate::script::{Kind, Pair, Script};
use crate::types::Type;

/// What is said of a card.
#[derive(Clone, Copy, PartialEq, Eq, Debug)]
pub enum Suggestion {
    /// The script loads as it is.
    Accepted,
    /// This type, written at this variable, would do.
    Written(u8, Type),
    /// No single written type would do.
    None,
}

impl Suggestion {
    /// The bytes of its report.
    pub fn report(self) -> [u8; SUGGEST_REPORT] {
        match self {
            Suggestion::Accepted => [0; SUGGEST_REPORT],
            Suggestion::Written(variable, t) => [1, variable, t.code(), 0],
            Suggestion::None => [2, 0, 0, 0],
        }
    }
}

/// A way to work out what is said of terms, schema and script, with types worked out so; or refusal 2 to 8.
pub type Suggest = fn(Typer, [&[u8]; 3]) -> Result<Suggestion, Refusal>;

/// What is said in the place of 9 is what `named` finds.
fn unless_decided<T>(
    loaded: Result<T, Refusal>,
    named: impl FnOnce() -> Option<(u8, Type)>,
) -> Result<Suggestion, Refusal> {
    match loaded {
        Ok(_) => Ok(Suggestion::Accepted),
        Err(refusal) if refusal.number != 9 => Err(refusal),
        Err(_) => Ok(named().map_or(Suggestion::None, |(variable, t)| Suggestion::Written(variable, t))),
    }
}

/// As it is defined: at each open variable in order each code in order is written into the script's bytes, and terms, schema and script are
/// checked anew, from their first byte on.
pub fn plain(typer: Typer, [terms, schema, script]: [&[u8]; 3]) -> Result<Suggestion, Refusal> {
    let loads = |script: &[u8]| check(typer, terms, schema, script);
    unless_decided(loads(script), || {
        let (_, _, tree) = read(terms, schema, script).ok()?;
        let tries = open_places(&tree).into_iter().flat_map(|place| Type::all().map(move |t| (place, t)));
        let mut helps = tries.filter(|((_, at), t)| {
            let mut changed = script.to_vec();
            changed[*at] = t.code();
            loads(&changed).is_ok()
        });
        helps.next().map(|((variable, _), t)| (variable, t))
    })
}

/// Where the first pair of a block stands after its kind, mode and count, and how many bytes a pair has.
const PAIRS_AT: usize = 3;
const PAIR: usize = 2;

/// The open variables in order, each with the place of its written type in the script's bytes.
pub fn open_places(script: &Script) -> Vec<(u8, usize)> {
    let mut places = Vec::new();
    for node in &script.nodes {
        let Kind::Block(block) = &node.kind else { continue };
        let first = usize::from(node.offset) + PAIRS_AT;
        let open = block.pairs.iter().enumerate().filter(|(_, (_, written))| written.is_none());
        places.extend(open.map(|(place, (variable, _))| (*variable, first + PAIR * place + 1)));
    }
    places.sort_unstable();
    places
}

/// Fast: all is read once, and the types are worked out again with another written type in the tree.
pub fn fast(typer: Typer, [terms, schema, script]: [&[u8]; 3]) -> Result<Suggestion, Refusal> {
    let (_, terms, mut script) = read(terms, schema, script)?;
    unless_decided(typer(&script, &terms), || {
        let written = script.written();
        let open = (0u8..).zip(written).filter(|(_, written)| *written == Some(None));
        for variable in open.map(|(variable, _)| variable) {
            let helps = Type::all().find(|t| {
                pair_of(&mut script, variable).into_iter().for_each(|pair| pair.1 = Some(*t));
                typer(&script, &terms).is_ok()
            });
            if let Some(t) = helps {
                return Some((variable, t));
            }
            pair_of(&mut script, variable).into_iter().for_each(|pair| pair.1 = None);
        }
        None
    })
}

/// The pair that binds a variable.
fn pair_of(script: &mut Script, variable: u8) -> Option<&mut Pair> {
    let blocks = script.nodes.iter_mut().filter_map(|node| match &mut node.kind {
        Kind::Block(block) => Some(block),
        _ => None,
    });
    blocks.flat_map(|block| &mut block.pairs).find(|pair| pair.0 == variable)
}
