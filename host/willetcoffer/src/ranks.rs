//! Ranks: the order in which a club sorts its texts.
//!
//! Ranks are a list of [`RANKS_WIDTH`] bytes, a rank for each byte from 20 to 7E in the order of the bytes, in which each rank from 0 to
//! 94 stands once. Less on strings goes by them, text first, then tag, and nothing else does. They are lent with the
//! [`Tables`](crate::Tables).

use crate::limits::RANKS_WIDTH;

/// The bytes of texts in the order of the built-in ranks: the blank, the digits, the letters as A a B b to Z z, then the others by byte.
pub const BUILT_IN_ORDER: &[u8; RANKS_WIDTH] =
    b" 0123456789AaBbCcDdEeFfGgHhIiJjKkLlMmNnOoPpQqRrSsTtUuVvWwXxYyZz!\"#$%&'()*+,-./:;<=>?@[\\]^_`{|}~";

/// The ranks to lend where a club has none of its own.
pub const BUILT_IN: [u8; RANKS_WIDTH] = match in_order(BUILT_IN_ORDER) {
    Some(ranks) => ranks,
    None => panic!("each byte stands once"),
};

/// The ranks under which these bytes rise; none unless each byte from 20 to 7E is there once.
///
/// ```
/// use willetcoffer::ranks::{in_order, BUILT_IN, BUILT_IN_ORDER};
/// assert_eq!(in_order(BUILT_IN_ORDER), Some(BUILT_IN));
/// // The club's rule: as built in, but the hyphen before all else.
/// let mut order = *BUILT_IN_ORDER;
/// let hyphen = order.iter().position(|byte| *byte == b'-').ok_or("a hyphen")?;
/// order[..=hyphen].rotate_right(1);
/// let ranks = in_order(&order).ok_or("each byte is still there")?;
/// assert_eq!((ranks[usize::from(b'-' - 0x20)], ranks[0]), (0, 1));
/// # Ok::<(), &str>(())
/// ```
pub const fn in_order(bytes: &[u8; RANKS_WIDTH]) -> Option<[u8; RANKS_WIDTH]> {
    let mut ranks = [u8::MAX; RANKS_WIDTH];
    let mut rank = 0;
    while rank < RANKS_WIDTH {
        let place = bytes[rank].wrapping_sub(0x20) as usize;
        if place >= RANKS_WIDTH || ranks[place] != u8::MAX {
            return None;
        }
        ranks[place] = rank as u8;
        rank += 1;
    }
    Some(ranks)
}
