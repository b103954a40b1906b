//! Damage to bytes: what a reader has to refuse, or to read as something else.

use crate::draw::rng::Rng;
use second::script::Kind;

/// Kinds that stand in some record.
const KINDS: [u8; 38] = [
    0x11, 0x12, 0x13, 0x14, 0x15, 0x21, 0x31, 0x32, 0x41, 0x42, 0x43, 0x44, 0x45, 0x50, 0x51, 0x52, 0x53, 0x54, 0x55,
    0x56, 0x57, 0x58, 0x61, 0x62, 0x63, 0x64, 0x65, 0x71, 0x72, 0x73, 0x74, 0x81, 0x82, 0x83, 0x84, 0x85, 0x00, 0xff,
];

/// Changes the bytes in one to three places.
pub fn damage(rng: &mut Rng, bytes: &mut Vec<u8>) {
    for _ in 0..rng.weighted(&[0, 8, 2, 1]) {
        let at = rng.below(bytes.len());
        if bytes.is_empty() {
            bytes.push(rng.one(&KINDS));
            continue;
        }
        match rng.below(10) {
            0 => bytes[at] ^= 1 << rng.below(8),
            1 => bytes[at] = rng.next() as u8,
            2 => bytes[at] = rng.one(&KINDS),
            3 => bytes[at] = bytes[at].wrapping_add(1),
            4 => bytes[at] = 0,
            5 => bytes.truncate(at),
            6 => {
                bytes.remove(at);
            }
            7 => bytes.insert(at, rng.one(&KINDS)),
            8 => bytes.push(rng.one(&KINDS)),
            _ => {
                let end = (at + rng.within(1, 50)).min(bytes.len());
                let again = bytes[at..end].to_vec();
                bytes.extend(again);
            }
        }
    }
}

/// Gives some record of these lengths twice, at the end.
pub fn repeat_record(rng: &mut Rng, bytes: &mut Vec<u8>, length: impl Fn(u8) -> Option<usize>) {
    let mut starts = Vec::new();
    let mut at = 0;
    while let Some(length) = bytes.get(at).and_then(|kind| length(*kind)) {
        starts.push((at, length));
        at += length;
    }
    if let Some((start, length)) = rng.pick(&starts).copied() {
        if let Some(record) = bytes.get(start..start + length).map(<[u8]>::to_vec) {
            bytes.extend(record);
        }
    }
}

/// Changes one byte of a block's head: its mode, its count, a variable, a written type or an unused pair.
pub fn block_head(rng: &mut Rng, script: &mut [u8], terms: usize) {
    let Ok(tree) = second::reader::read_script(script, terms) else {
        return;
    };
    let blocks = tree.nodes.iter().filter(|node| matches!(node.kind, Kind::Block(_)));
    let starts: Vec<usize> = blocks.map(|node| usize::from(node.offset)).collect();
    let Some(start) = rng.pick(&starts).copied() else {
        return;
    };
    let other = rng.one(&starts);
    match rng.below(6) {
        0 => script[start + 1] = rng.below(4) as u8,
        1 => script[start + 2] = rng.below(6) as u8,
        2 => script[start + 3 + 2 * rng.below(4)] = rng.below(18) as u8,
        3 => script[start + 4 + 2 * rng.below(4)] = rng.below(16) as u8,
        _ => script[start + 3] = script[other + 3 + 2 * rng.below(2)],
    }
}
