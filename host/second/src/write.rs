//! Records as bytes, for tests and for the cases that the comparison draws: one function for each kind.

use crate::limits::{PAIRS, PATTERN, TAG};
use crate::term::{fill, Term, Uri};
use crate::types::Datatype;

/// Bytes of one or more records.
pub type Bytes = Vec<u8>;

/// A URI of this text.
pub fn uri(text: &str) -> Term {
    Term::Uri(fill(text.as_bytes()))
}

/// A string without a tag.
pub fn string(text: &str) -> Term {
    tagged("", text)
}

/// A string with a tag.
pub fn tagged(tag: &str, text: &str) -> Term {
    Term::Str(fill(tag.as_bytes()), fill(text.as_bytes()))
}

/// Terms joined.
pub fn terms(list: &[Term]) -> Bytes {
    list.iter().flat_map(Term::record).collect()
}

/// Kind 21.
pub fn entry(uri: &Uri, datatype: Datatype) -> Bytes {
    [&[0x21], &uri[..], &[datatype as u8]].concat()
}

/// Schema records joined.
pub fn schema(list: &[(&str, Datatype)]) -> Bytes {
    list.iter().flat_map(|(text, datatype)| entry(&fill(text.as_bytes()), *datatype)).collect()
}

/// Kinds 81 to 85.
pub fn triple(subject: &Uri, property: &Uri, object: &Term) -> Bytes {
    let object = object.record();
    [&[object[0] + 0x70], &subject[..], &property[..], &object[1..]].concat()
}

/// Kind 31.
pub fn var(number: u8) -> Bytes {
    vec![0x31, number]
}

/// Kind 32.
pub fn con(number: usize) -> Bytes {
    [&[0x32], &(number as u16).to_le_bytes()[..]].concat()
}

/// A record without a body and its children.
pub fn node(kind: u8, children: &[Bytes]) -> Bytes {
    [&[kind], &children.concat()[..]].concat()
}

/// Kind 41.
pub fn now() -> Bytes {
    vec![0x41]
}

/// Kind 42.
pub fn str(expr: Bytes) -> Bytes {
    node(0x42, &[expr])
}

/// Kind 43.
pub fn abs(expr: Bytes) -> Bytes {
    node(0x43, &[expr])
}

/// Kind 44.
pub fn plus(a: Bytes, b: Bytes) -> Bytes {
    node(0x44, &[a, b])
}

/// Kind 45.
pub fn minus(a: Bytes, b: Bytes) -> Bytes {
    node(0x45, &[a, b])
}

/// Kind 54.
pub fn not(cond: Bytes) -> Bytes {
    node(0x54, &[cond])
}

/// Kind 55.
pub fn regex(pattern: &str, expr: Bytes) -> Bytes {
    [&[0x55], &fill::<PATTERN>(pattern.as_bytes())[..], &expr].concat()
}

/// Kind 56.
pub fn lang_matches(range: &str, expr: Bytes) -> Bytes {
    [&[0x56], &fill::<TAG>(range.as_bytes())[..], &expr].concat()
}

/// Kind 57.
pub fn equal(a: Bytes, b: Bytes) -> Bytes {
    node(0x57, &[a, b])
}

/// Kind 58.
pub fn less(a: Bytes, b: Bytes) -> Bytes {
    node(0x58, &[a, b])
}

/// Kind 61.
pub fn pattern(graph: Bytes, subject: Bytes, property: Bytes, object: Bytes) -> Bytes {
    node(0x61, &[graph, subject, property, object])
}

/// Kind 62.
pub fn both(a: Bytes, b: Bytes) -> Bytes {
    node(0x62, &[a, b])
}

/// Kind 63.
pub fn union(a: Bytes, b: Bytes) -> Bytes {
    node(0x63, &[a, b])
}

/// Kind 64.
pub fn filter(cond: Bytes) -> Bytes {
    node(0x64, &[cond])
}

/// Kind 65.
pub fn empty() -> Bytes {
    vec![0x65]
}

/// Kind 71.
pub fn success() -> Bytes {
    vec![0x71]
}

/// Kind 72.
pub fn from_named(term: Bytes, script: Bytes) -> Bytes {
    node(0x72, &[term, script])
}

/// Kind 73 with this mode: pairs of variable and type code, at most four.
pub fn block(each: bool, pairs: &[(u8, u8)], query: Bytes, script: Bytes) -> Bytes {
    let mut head = [0; 3 + 2 * PAIRS];
    head[..3].copy_from_slice(&[0x73, u8::from(each), pairs.len() as u8]);
    for (pair, place) in pairs.iter().zip(head[3..].chunks_mut(2)) {
        place.copy_from_slice(&[pair.0, pair.1]);
    }
    [&head, &query[..], &script].concat()
}

/// Kind 73, mode once.
pub fn once(pairs: &[(u8, u8)], query: Bytes, script: Bytes) -> Bytes {
    block(false, pairs, query, script)
}

/// Kind 73, mode each.
pub fn each(pairs: &[(u8, u8)], query: Bytes, script: Bytes) -> Bytes {
    block(true, pairs, query, script)
}

/// Kind 74.
pub fn sequence(first: Bytes, second: Bytes) -> Bytes {
    node(0x74, &[first, second])
}
