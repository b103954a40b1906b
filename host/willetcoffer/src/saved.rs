//! The saved run: what a card has come to, in [`SAVED_WIDTH`] bytes.

use crate::limits::{
    BINDINGS_OFFSET, BOUND_OFFSET, DEPTH_LIMIT, FETCHED_OFFSET, GRAPH_LIMIT, ITEMS_OFFSET, ITEM_WIDTH, PAIR_LIMIT,
    SAVED_WIDTH, TYPES_OFFSET, VARIABLE_LIMIT,
};
use crate::types::Type;

/// Where the stack's height stands.
pub const HEIGHT: usize = 0;
/// Where the number of quads in use stands.
pub const QUADS: usize = 2;
/// Where the number of fetched graphs stands.
pub const GRAPHS: usize = 4;
/// Where, in an item, its mark stands: 1 if it has a last tuple.
pub const ITEM_MARK: usize = 2;
/// Where, in an item, a zero stands.
pub const ITEM_ZERO: usize = 3;
/// Where, in an item, its last tuple stands.
pub const ITEM_TUPLE: usize = 4;

/// A saved run. A load makes it, a run call and a page call take it and leave the next one; a host may store its bytes and
/// hand them in again ([`SavedRun::from_bytes`]): bytes that no run has left meet refusal 10.
///
/// The accessors read bytes as they stand and never panic: in a run that the engine has left they say what it holds.
#[derive(Clone, PartialEq, Eq, Debug)]
pub struct SavedRun {
    bytes: [u8; SAVED_WIDTH],
}

/// An item of the stack.
#[derive(Clone, Copy, PartialEq, Eq, Debug)]
pub struct StackItem {
    /// The offset of its record in the script.
    pub offset: u16,
    /// The tuple that an each block last used, by term numbers.
    pub last: Option<[u16; PAIR_LIMIT]>,
}

impl SavedRun {
    /// A run of these bytes, as [`SavedRun::as_bytes`] gave them.
    pub fn from_bytes(bytes: [u8; SAVED_WIDTH]) -> SavedRun {
        SavedRun { bytes }
    }

    /// Its bytes, to be stored.
    pub fn as_bytes(&self) -> &[u8; SAVED_WIDTH] {
        &self.bytes
    }

    pub(crate) fn as_bytes_mut(&mut self) -> &mut [u8; SAVED_WIDTH] {
        &mut self.bytes
    }

    fn number(&self, at: usize) -> u16 {
        u16::from_le_bytes([self.bytes[at], self.bytes[at + 1]])
    }

    fn count(&self, at: usize, limit: usize) -> usize {
        usize::from(self.number(at)).min(limit)
    }

    /// How many quads of the quad table are in use.
    pub fn quads(&self) -> usize {
        usize::from(self.number(QUADS))
    }

    /// The reported type of a variable; none for one that no block binds.
    pub fn variable_type(&self, variable: u8) -> Option<Type> {
        let code = self.bytes[TYPES_OFFSET..BOUND_OFFSET].get(usize::from(variable))?;
        Type::from_code(*code)
    }

    /// The reported types, with their variables.
    pub fn types(&self) -> impl Iterator<Item = (u8, Type)> + '_ {
        (0..VARIABLE_LIMIT as u8).filter_map(|variable| Some((variable, self.variable_type(variable)?)))
    }

    /// The term number that a variable is bound to.
    pub fn binding(&self, variable: u8) -> Option<u16> {
        let variable = usize::from(variable);
        let mark = self.bytes[BOUND_OFFSET..BINDINGS_OFFSET].get(variable)?;
        (*mark == 1).then(|| self.number(BINDINGS_OFFSET + 2 * variable))
    }

    /// The fetched graphs' term numbers, in the order of their first page.
    pub fn fetched(&self) -> impl Iterator<Item = u16> + '_ {
        (0..self.count(GRAPHS, GRAPH_LIMIT)).map(|place| self.number(FETCHED_OFFSET + 2 * place))
    }

    /// The stack from the bottom; a run that has ended has none.
    pub fn stack(&self) -> impl Iterator<Item = StackItem> + '_ {
        (0..self.count(HEIGHT, DEPTH_LIMIT)).map(|place| {
            let at = ITEMS_OFFSET + ITEM_WIDTH * place;
            let tuple = || std::array::from_fn(|i| self.number(at + ITEM_TUPLE + 2 * i));
            StackItem { offset: self.number(at), last: (self.bytes[at + ITEM_MARK] == 1).then(tuple) }
        })
    }
}
