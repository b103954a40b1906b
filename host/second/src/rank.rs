//! The order of strings (document 02, Ask 9): by text, then by tag, both by the ranks that a call is lent.
//!
//! Ranks are tested and followed in two ways that give the same: [`PLAIN`] as list and order are defined, [`FAST`] by one set of
//! bits and by the first place that differs.

use crate::limits::{RANKS, TAG, TEXT};
use crate::note::{note, Note};
use crate::term::trim;

/// A rank for each byte from 20 to 7E.
pub type Ranks = [u8; RANKS];

/// A string: its tag and its text, both filled with zeros.
pub type Str = ([u8; TAG], [u8; TEXT]);

/// A way to test ranks and to follow them.
#[derive(Clone, Copy, Debug)]
pub struct Alphabet {
    /// Whether each rank from 0 to 94 stands once in the list.
    pub stands: fn(&Ranks) -> bool,
    /// Whether a string is less than another by ranks that stand so.
    pub less: fn(&Ranks, &Str, &Str) -> bool,
}

/// As defined: each rank is counted, and texts are taken apart byte by byte.
pub const PLAIN: Alphabet = Alphabet { stands: each_once, less: text_then_tag };

/// All ranks in one set, and the first place that differs decides.
pub const FAST: Alphabet = Alphabet { stands: all_there, less: first_difference };

/// The ranks that a call is lent, and how they are followed.
#[derive(Clone, Copy)]
pub struct Lent<'a> {
    /// The ranks.
    pub ranks: &'a Ranks,
    /// How they are followed.
    pub alphabet: Alphabet,
}

impl Lent<'_> {
    /// Whether a string is less than another.
    pub fn less(&self, a: &Str, b: &Str) -> bool {
        (self.alphabet.less)(self.ranks, a, b)
    }
}

/// The ranks to lend where there are no others: blank, digits, letters as A a B b to Z z, then the others by byte.
pub const BUILT_IN: Ranks = built_in();

const fn built_in() -> Ranks {
    let mut ranks = [0; RANKS];
    let mut others = 63;
    let mut i = 0;
    while i < RANKS {
        let byte = i as u8 + 0x20;
        ranks[i] = match byte {
            b' ' => 0,
            b'0'..=b'9' => 1 + byte - b'0',
            b'A'..=b'Z' => 11 + 2 * (byte - b'A'),
            b'a'..=b'z' => 12 + 2 * (byte - b'a'),
            _ => {
                others += 1;
                others - 1
            }
        };
        i += 1;
    }
    ranks
}

fn each_once(ranks: &Ranks) -> bool {
    (0..RANKS).all(|rank| ranks.iter().filter(|r| usize::from(**r) == rank).count() == 1)
}

/// By text; of the same text, by tag.
fn text_then_tag(ranks: &Ranks, (tag_a, a): &Str, (tag_b, b): &Str) -> bool {
    before(ranks, trim(a), trim(b)) || (a == b && before(ranks, trim(tag_a), trim(tag_b)))
}

/// The end comes first; then the first byte's rank decides; after the same first byte, the rest.
fn before(ranks: &Ranks, a: &[u8], b: &[u8]) -> bool {
    match (a, b) {
        (_, []) => false,
        ([], _) => true,
        ([a, _rest @ ..], [b, ..]) if a != b => ranks[usize::from(a - 0x20)] < ranks[usize::from(b - 0x20)],
        ([_, a @ ..], [_, b @ ..]) => before(ranks, a, b),
    }
}

/// As many different ranks below 95 as there are places.
fn all_there(ranks: &Ranks) -> bool {
    let set = ranks.iter().fold(0, |set, rank| set | 1u128.checked_shl(u32::from(*rank)).unwrap_or(0));
    set == (1 << RANKS) - 1
}

/// The rank of a byte of a field; the zeros after a text have none, which comes first.
fn rank(ranks: &Ranks, byte: u8) -> Option<u8> {
    byte.checked_sub(0x20).map(|place| ranks[usize::from(place)])
}

fn differing(a: &[u8], b: &[u8]) -> Option<(u8, u8)> {
    a.iter().zip(b).find(|(a, b)| a != b).map(|(a, b)| (*a, *b))
}

/// What the first place decides in which texts, or else tags, differ. What that shows of the ranks is noted.
fn first_difference(ranks: &Ranks, (tag_a, a): &Str, (tag_b, b): &Str) -> bool {
    let (otherwise, not_by_byte, (a, b)) = match (differing(a, b), differing(tag_a, tag_b)) {
        (Some(bytes), _) => (Note::OtherTexts, Note::TextsNotByByte, bytes),
        (None, Some(bytes)) => (Note::OtherTags, Note::TagsNotByByte, bytes),
        (None, None) => return false,
    };
    let less = rank(ranks, a) < rank(ranks, b);
    if a == 0 || b == 0 {
        note(Note::Begins);
    }
    if less != (rank(&BUILT_IN, a) < rank(&BUILT_IN, b)) {
        note(otherwise);
    }
    if less != (a < b) {
        note(not_by_byte);
    }
    less
}

#[cfg(test)]
mod tests {
    use super::*;
    use crate::term::fill;

    const WAYS: [Alphabet; 2] = [PLAIN, FAST];

    fn stands(ranks: &Ranks) -> bool {
        let [plain, fast] = WAYS.map(|alphabet| (alphabet.stands)(ranks));
        assert_eq!(plain, fast, "{ranks:?}");
        plain
    }

    fn less(ranks: &Ranks, a: &Str, b: &Str) -> bool {
        let [plain, fast] = WAYS.map(|alphabet| (alphabet.less)(ranks, a, b));
        assert_eq!(plain, fast, "{a:?} {b:?} by {ranks:?}");
        plain
    }

    fn string(tag: &str, text: &str) -> Str {
        (fill(tag.as_bytes()), fill(text.as_bytes()))
    }

    fn turned(ranks: &Ranks) -> Ranks {
        ranks.map(|rank| 94 - rank)
    }

    /// A generator of numbers below some number.
    fn chance(seed: u64) -> impl FnMut(usize) -> usize {
        let mut state = seed;
        move |n| {
            state = state.wrapping_mul(6364136223846793005).wrapping_add(1442695040888963407);
            (state >> 33) as usize % n
        }
    }

    fn mixed(draw: &mut impl FnMut(usize) -> usize) -> Ranks {
        let mut ranks = BUILT_IN;
        for place in (1..RANKS).rev() {
            ranks.swap(place, draw(place + 1));
        }
        ranks
    }

    #[test]
    fn the_built_in_ranks_stand_in_the_order_of_the_document() {
        assert!(stands(&BUILT_IN));
        let mut bytes: Vec<u8> = (0x20..=0x7e).collect();
        bytes.sort_by_key(|byte| BUILT_IN[usize::from(*byte - 0x20)]);
        let letters: Vec<u8> = (b'A'..=b'Z').flat_map(|b| [b, b + 32]).collect();
        let others = br##"!"#$%&'()*+,-./:;<=>?@[\]^_`{|}~"##;
        assert_eq!(bytes, [&b" 0123456789"[..], &letters, others].concat());
    }

    /// "It must hold each rank 0 to 94 once."
    #[test]
    fn each_rank_once() {
        let mut draw = chance(9);
        assert!(stands(&turned(&BUILT_IN)) && stands(&std::array::from_fn(|place| place as u8)));
        for _ in 0..200 {
            let ranks = mixed(&mut draw);
            assert!(stands(&ranks));
            let (place, other) = (draw(RANKS), draw(RANKS));
            for wrong in [95, 96, 127, 128, 128 + ranks[place], ranks[place] ^ 128, 191, 223, 255] {
                let mut bad = ranks;
                bad[place] = wrong;
                assert!(!stands(&bad), "{wrong} at {place}");
            }
            let mut twice = ranks;
            twice[place] = ranks[other];
            assert_eq!(stands(&twice), place == other);
        }
        // Counted from 1, and all alike.
        assert!(!stands(&BUILT_IN.map(|rank| rank + 1)) && !stands(&[0; RANKS]) && !stands(&[94; RANKS]));
    }

    #[test]
    fn by_the_built_in_ranks() {
        let rising = ["", " ", " a", "0", "9", "A", "Aa", "a", "aA", "B", "b", "z", "za", "!", "-", "~"];
        for (i, a) in rising.iter().enumerate() {
            for (j, b) in rising.iter().enumerate() {
                assert_eq!(less(&BUILT_IN, &string("", a), &string("", b)), i < j, "{a:?} {b:?}");
                // The tag counts nothing where the texts differ.
                assert_eq!(less(&BUILT_IN, &string("z", a), &string("a", b)), i < j, "{a:?} {b:?}");
            }
        }
        let tagged = ["", "e", "en", "eng", "en-gb", "fr", "-"].map(|tag| string(tag, "a"));
        for (i, a) in tagged.iter().enumerate() {
            for (j, b) in tagged.iter().enumerate() {
                assert_eq!(less(&BUILT_IN, a, b), i < j, "{a:?} {b:?}");
            }
        }
    }

    /// Turned round, what comes first is the last of the ranks; but the end still comes before everything.
    #[test]
    fn by_ranks_turned_round() {
        let ranks = turned(&BUILT_IN);
        for rising in
            [["", "~", "b", "a", "A", "0"], ["", "a", "a~", "ab", "aA", "a "], ["", "-", "--", "-a", "a", "a-"]]
        {
            for (i, a) in rising.iter().enumerate() {
                for (j, b) in rising.iter().enumerate() {
                    assert_eq!(less(&ranks, &string("", a), &string("", b)), i < j, "{a:?} {b:?}");
                }
            }
        }
        // Tags by the same ranks: the hyphen comes before the letters now.
        assert!(less(&ranks, &string("en-gb", "a"), &string("eng", "a")));
        assert!(
            less(&ranks, &string("z", "a"), &string("a", "a")) && less(&ranks, &string("", "a"), &string("z", "a"))
        );
    }

    /// Of two different strings exactly one is less; none is less than itself; and what is less than a lesser one is less.
    #[test]
    fn one_order_for_every_club() {
        let mut draw = chance(95);
        let strings: Vec<Str> = (0..400)
            .map(|_| {
                let text: String = (0..draw(4)).map(|_| (0x20 + draw(95)) as u8 as char).collect();
                string(["", "e", "en", "-", "e-", "f"][draw(6)], ["", "a", "A", &text, &text][draw(5)])
            })
            .collect();
        for _ in 0..60 {
            let ranks = mixed(&mut draw);
            for _ in 0..400 {
                let [a, b, c] = [0; 3].map(|_| &strings[draw(400)]);
                assert_eq!(usize::from(less(&ranks, a, b)) + usize::from(less(&ranks, b, a)), usize::from(a != b));
                assert!(!less(&ranks, a, a));
                assert!(!(less(&ranks, a, b) && less(&ranks, b, c)) || less(&ranks, a, c));
            }
        }
    }
}
