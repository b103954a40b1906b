//! Texts at an edge: where a call looks at the last byte that a text had before document 02's Ask 6, at the first that it has since, at the
//! last but one and at the last; noted for a comparison to count.

use crate::limits::TEXT;
use crate::term::trim;
use std::cell::Cell;

/// Bytes of a text before Ask 6.
pub const OLD_TEXT: usize = 40;

/// The bytes at an edge, counted from 1; and the lengths of the texts that end there.
pub const EDGES: [usize; 4] = [OLD_TEXT, OLD_TEXT + 1, TEXT - 1, TEXT];

/// What looks at a text there.
#[derive(Clone, Copy, PartialEq, Eq, Debug)]
pub enum Look {
    /// Str of a URI that ends there.
    StrOfUri,
    /// Str of a string whose text ends there.
    StrOfString,
    /// Less on URIs that differ there first.
    LessOnUris,
    /// Less on strings whose texts differ there first.
    LessOnStrings,
    /// Equal on URIs that differ there first.
    EqualOnUris,
    /// Equal on strings whose texts differ there first.
    EqualOnStrings,
    /// A pattern on a text that ends there, of which its last byte decides.
    Pattern,
}

impl Look {
    /// All of them.
    pub const ALL: [Look; 7] = [
        Look::StrOfUri,
        Look::StrOfString,
        Look::LessOnUris,
        Look::LessOnStrings,
        Look::EqualOnUris,
        Look::EqualOnStrings,
        Look::Pattern,
    ];

    /// What it is counted under, the edge being a name in it.
    pub fn name(self) -> &'static str {
        match self {
            Look::StrOfUri => "str of a URI of",
            Look::StrOfString => "str of a string of",
            Look::LessOnUris => "less on URIs at byte",
            Look::LessOnStrings => "less on strings at byte",
            Look::EqualOnUris => "equal on URIs at byte",
            Look::EqualOnStrings => "equal on strings at byte",
            Look::Pattern => "a pattern decided at byte",
        }
    }
}

thread_local! {
    /// A bit for each look at each edge.
    static TAKEN: Cell<u32> = const { Cell::new(0) };
}

fn bit(look: Look, edge: usize) -> u32 {
    1 << (look as usize * EDGES.len() + edge)
}

/// Notes a look at this byte, counted from 1, if it is at an edge.
pub(crate) fn look(look: Look, byte: usize) {
    if let Some(edge) = EDGES.iter().position(|edge| *edge == byte) {
        TAKEN.set(TAKEN.get() | bit(look, edge));
    }
}

/// Notes a look at the length of a text.
pub(crate) fn length(what: Look, text: &[u8; TEXT]) {
    if text[OLD_TEXT - 1] != 0 {
        look(what, trim(text).len());
    }
}

/// Notes a look at the first byte in which two texts differ, if they do.
pub(crate) fn difference(what: Look, a: &[u8; TEXT], b: &[u8; TEXT]) {
    if a[OLD_TEXT - 1] | b[OLD_TEXT - 1] != 0 {
        if let Some(place) = a.iter().zip(b).position(|(a, b)| a != b) {
            look(what, place + 1);
        }
    }
}

/// The looks of this thread since this was called last, each once, with the byte.
pub fn take_looks() -> Vec<(Look, usize)> {
    let taken = TAKEN.take();
    let all = Look::ALL.into_iter().flat_map(|look| (0..EDGES.len()).map(move |edge| (look, edge)));
    all.filter(|(look, edge)| taken & bit(*look, *edge) != 0).map(|(look, edge)| (look, EDGES[edge])).collect()
}

#[cfg(test)]
mod tests {
    use super::*;
    use crate::term::fill;

    #[test]
    fn each_once_until_taken() {
        take_looks();
        for byte in [OLD_TEXT - 1, OLD_TEXT, OLD_TEXT + 2, TEXT, TEXT + 1, TEXT] {
            look(Look::Pattern, byte);
        }
        assert_eq!(take_looks(), [(Look::Pattern, OLD_TEXT), (Look::Pattern, TEXT)]);
        assert!(take_looks().is_empty());
        let all: Vec<(Look, usize)> = Look::ALL.into_iter().flat_map(|look| EDGES.map(|edge| (look, edge))).collect();
        all.iter().for_each(|(what, byte)| look(*what, *byte));
        assert_eq!(take_looks(), all);
    }

    #[test]
    fn lengths_and_differences() {
        take_looks();
        let of = |bytes: usize, last: u8| {
            let mut text = fill::<TEXT>(&vec![b'x'; bytes]);
            text[bytes - 1] = last;
            text
        };
        for bytes in 1..=TEXT {
            length(Look::StrOfUri, &of(bytes, b'a'));
            difference(Look::EqualOnUris, &of(bytes, b'a'), &of(bytes, b'b'));
            let expected = [Look::StrOfUri, Look::EqualOnUris].map(|look| (look, bytes));
            assert_eq!(take_looks(), if EDGES.contains(&bytes) { expected.to_vec() } else { Vec::new() });
        }
        // One that begins the other differs from it at the byte after its end; a text from itself nowhere.
        difference(Look::LessOnStrings, &of(OLD_TEXT, b'x'), &of(TEXT, b'x'));
        assert_eq!(take_looks(), [(Look::LessOnStrings, OLD_TEXT + 1)]);
        difference(Look::LessOnStrings, &of(TEXT, b'x'), &of(TEXT, b'x'));
        assert!(take_looks().is_empty());
    }
}
