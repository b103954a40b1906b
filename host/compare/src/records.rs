//! The records of a card, told apart by the widths that their kinds fix, whatever is in them.

use willetcoffer::kinds::{BLOCK, CONSTANT, LANG_MATCHES, REGEX, URI, VARIABLE};
use willetcoffer::limits::{
    BLOCK_WIDTH, ENTRY_WIDTH, LANGUAGE_RANGE_WIDTH, PAIRS_OFFSET, PATTERN_WIDTH, SLOT_WIDTH, URI_WIDTH,
};
use willetcoffer::term::body_width;
use willetcoffer::Card;

/// Records of these widths; from a kind without one on, or a record that is cut off, the rest in one piece.
fn split(bytes: &[u8], width: impl Fn(u8) -> Option<usize>) -> Vec<Vec<u8>> {
    let mut all = Vec::new();
    let mut rest = bytes;
    while let Some(kind) = rest.first() {
        let (record, after) = rest.split_at(width(*kind).unwrap_or(rest.len()).min(rest.len()));
        all.push(record.to_vec());
        rest = after;
    }
    all
}

/// Term records.
pub fn terms(bytes: &[u8]) -> Vec<Vec<u8>> {
    split(bytes, |kind| body_width(kind).map(|body| 1 + body))
}

/// Schema records.
pub fn entries(bytes: &[u8]) -> Vec<Vec<u8>> {
    split(bytes, |_| Some(ENTRY_WIDTH))
}

/// A record and zeros.
fn slot(record: &[u8]) -> Vec<u8> {
    let mut slot = record.to_vec();
    slot.resize(SLOT_WIDTH, 0);
    slot
}

/// The terms' slots as loading numbers them: those listed, then the schema's URIs that are not among them.
pub fn numbered(card: &Card) -> Vec<Vec<u8>> {
    let mut all: Vec<Vec<u8>> = terms(&card.terms).iter().map(|record| slot(record)).collect();
    for entry in entries(&card.schema).iter().filter(|entry| entry.len() == ENTRY_WIDTH) {
        let uri = slot(&[&[URI], &entry[1..URI_WIDTH]].concat());
        if !all.contains(&uri) {
            all.push(uri);
        }
    }
    all
}

/// The open variables of a script that can be read, in order, each with the place of its written type: records follow one another, so that
/// their widths lead from block to block.
pub fn open_pairs(script: &[u8]) -> Vec<(u8, usize)> {
    let mut open = Vec::new();
    let mut at = 0;
    for record in split(script, |kind| Some(1 + script_body(kind))) {
        if let [BLOCK, _, count, pairs @ ..] = &record[..] {
            let pairs = pairs.chunks(2).take(usize::from(*count)).enumerate().filter(|(_, pair)| pair[1..] == [0]);
            open.extend(pairs.map(|(place, pair)| (pair[0], at + PAIRS_OFFSET + 2 * place + 1)));
        }
        at += record.len();
    }
    open.sort_unstable();
    open
}

/// Bytes of a script record's body.
fn script_body(kind: u8) -> usize {
    match kind {
        VARIABLE => 1,
        CONSTANT => 2,
        REGEX => PATTERN_WIDTH,
        LANG_MATCHES => LANGUAGE_RANGE_WIDTH,
        BLOCK => BLOCK_WIDTH,
        _ => 0,
    }
}
