//! The saved run as bytes.
//!
//! | at | bytes | what |
//! |---|---|---|
//! | 0 | 2 | height of the stack |
//! | 2 | 2 | quads in use |
//! | 4 | 2 | fetched graphs |
//! | 6 | 16 | types by variable |
//! | 22 | 16 | 1 for a bound variable |
//! | 38 | 32 | the bound variables' term numbers |
//! | 70 | 128 | the fetched graphs' term numbers |
//! | 198 | 288 | 24 stack items: offset (2), mark (1), zero (1), last tuple (8) |

use crate::limits::{DEPTH, GRAPHS, PAIRS, QUADS, SAVED, VARIABLES};
use crate::machine::Machine;
use crate::refusal::{demand, Refusal};
use crate::rules::Env;
use crate::script::Script;

const TYPES: usize = 6;
const BOUND: usize = 22;
const NUMBERS: usize = 38;
const FETCHED: usize = 70;
const ITEMS: usize = 198;
const ITEM: usize = 12;

/// A stack item as it is saved.
#[derive(Clone, Copy, PartialEq, Eq, Debug)]
pub struct SavedItem {
    /// The offset of its record in the script.
    pub offset: u16,
    /// The last tuple, where the mark is set.
    pub last: Option<[u16; PAIRS]>,
}

/// A saved run with what means something in it.
#[derive(Clone, PartialEq, Eq, Debug)]
pub struct SavedRun {
    /// Quads in use.
    pub quads: usize,
    /// Type codes by variable, 0 for one that no block binds.
    pub types: [u8; VARIABLES],
    /// The bound variables' term numbers.
    pub bound: [Option<u16>; VARIABLES],
    /// The fetched graphs.
    pub fetched: Vec<u16>,
    /// The stack from the bottom.
    pub items: Vec<SavedItem>,
}

fn get(bytes: &[u8], at: usize) -> u16 {
    u16::from_le_bytes([bytes[at], bytes[at + 1]])
}

fn put(bytes: &mut [u8], at: usize, number: u16) {
    bytes[at..at + 2].copy_from_slice(&number.to_le_bytes());
}

/// Reads the bytes; refusal 10 for those that no saved run has. What means nothing is not looked at.
pub fn decode(bytes: &[u8; SAVED]) -> Result<SavedRun, Refusal> {
    let [height, quads, graphs] = [0, 2, 4].map(|at| usize::from(get(bytes, at)));
    demand(height <= DEPTH, 10, "saved: height")?;
    demand(quads <= QUADS, 10, "saved: quad count")?;
    demand(graphs <= GRAPHS, 10, "saved: graph count")?;
    let mut types = [0; VARIABLES];
    types.copy_from_slice(&bytes[TYPES..BOUND]);
    let mut bound = [None; VARIABLES];
    for (variable, number) in bound.iter_mut().enumerate() {
        let mark = bytes[BOUND + variable];
        demand(mark <= 1, 10, "saved: bound mark")?;
        *number = (mark == 1).then(|| get(bytes, NUMBERS + 2 * variable));
    }
    let fetched = (0..graphs).map(|i| get(bytes, FETCHED + 2 * i)).collect();
    let mut items = Vec::new();
    for item in bytes[ITEMS..].chunks(ITEM).take(height) {
        demand(item[2] <= 1, 10, "saved: tuple mark")?;
        demand(item[3] == 0, 10, "saved: fourth byte of an item")?;
        let last = (item[2] == 1).then(|| [4, 6, 8, 10].map(|at| get(item, at)));
        items.push(SavedItem { offset: get(item, 0), last });
    }
    Ok(SavedRun { quads, types, bound, fetched, items })
}

/// Writes a machine's state; what means nothing is zero.
pub fn encode(script: &Script, types: &Env, machine: &Machine, quads: usize) -> [u8; SAVED] {
    let mut bytes = [0; SAVED];
    let counts = [machine.stack.len(), quads, machine.fetched.len()];
    for (i, count) in counts.into_iter().enumerate() {
        put(&mut bytes, 2 * i, count as u16);
    }
    for variable in 0..VARIABLES {
        bytes[TYPES + variable] = types[variable].map_or(0, |t| t.code());
        if let Some(number) = machine.bindings[variable] {
            bytes[BOUND + variable] = 1;
            put(&mut bytes, NUMBERS + 2 * variable, number);
        }
    }
    for (i, graph) in machine.fetched.iter().enumerate() {
        put(&mut bytes, FETCHED + 2 * i, *graph);
    }
    for (item, at) in machine.stack.iter().zip((ITEMS..).step_by(ITEM)) {
        put(&mut bytes, at, script.nodes[item.node].offset);
        if let Some(tuple) = &item.last {
            bytes[at + 2] = 1;
            for (i, number) in tuple.iter().enumerate() {
                put(&mut bytes, at + 4 + 2 * i, *number);
            }
        }
    }
    bytes
}
