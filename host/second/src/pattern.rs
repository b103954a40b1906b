//! Patterns: what `regex` looks for in a text.

use crate::limits::PATTERN;
use crate::term::filled;

/// What one place of a pattern fits.
#[derive(Clone, Copy, PartialEq, Eq, Debug)]
enum Unit {
    /// This byte.
    Byte(u8),
    /// Any byte.
    Any,
}

/// A good pattern.
#[derive(Clone, PartialEq, Eq, Debug)]
pub struct Pattern {
    /// `^`: the part begins where the text begins.
    from_start: bool,
    /// `$`: the part ends where the text ends.
    to_end: bool,
    /// The units in order, each with whether a star follows it.
    units: Vec<(Unit, bool)>,
}

impl Pattern {
    /// Reads the 16 bytes of a pattern; none if it is bad.
    pub fn read(bytes: &[u8; PATTERN]) -> Option<Pattern> {
        let length = filled(bytes, |b| (0x20..=0x7e).contains(&b) && !br"\|?+()[]{}".contains(&b))?;
        let mut rest = &bytes[..length];
        let from_start = rest.first() == Some(&b'^');
        if from_start {
            rest = &rest[1..];
        }
        let to_end = rest.last() == Some(&b'$');
        if to_end {
            rest = &rest[..rest.len() - 1];
        }
        let mut units: Vec<(Unit, bool)> = Vec::new();
        for byte in rest {
            match byte {
                b'^' | b'$' => return None,
                b'*' => match units.last_mut() {
                    Some((_, starred)) if !*starred => *starred = true,
                    _ => return None,
                },
                b'.' => units.push((Unit::Any, false)),
                byte => units.push((Unit::Byte(*byte), false)),
            }
        }
        Some(Pattern { from_start, to_end, units })
    }

    /// Whether some part of the text fits. All ways of fitting are followed at once: bit i of `reached` says that the
    /// first i units fit a part that ends here.
    pub fn accepts(&self, text: &[u8]) -> bool {
        let all = 1u32 << self.units.len();
        let skip_stars = |mut reached: u32| {
            for (i, (_, starred)) in self.units.iter().enumerate() {
                if *starred && reached >> i & 1 == 1 {
                    reached |= 1 << (i + 1);
                }
            }
            reached
        };
        let mut reached = skip_stars(1);
        for byte in text {
            if reached & all != 0 && !self.to_end {
                return true;
            }
            let mut next = 0;
            for (i, (unit, starred)) in self.units.iter().enumerate() {
                if reached >> i & 1 == 1 && (*unit == Unit::Any || *unit == Unit::Byte(*byte)) {
                    next |= if *starred { 1 << i } else { 1 << (i + 1) };
                }
            }
            if !self.from_start {
                next |= 1;
            }
            reached = skip_stars(next);
        }
        reached & all != 0
    }
}

#[cfg(test)]
mod tests {
    use super::*;
    use crate::term::fill;

    fn pattern(text: &str) -> Option<Pattern> {
        Pattern::read(&fill(text.as_bytes()))
    }

    #[test]
    fn good_and_bad() {
        for good in
            ["", "^", "$", "^$", "a", ".", ".*", "a*", " ~", "^a*$", "0123456789abcdef", "^0123456789abc*$", "a-b", "/"]
        {
            assert!(pattern(good).is_some(), "{good}");
        }
        for bad in ["*", "^*", "$*", "a**", "a^", "^^", "$$", "a$b", "$a", "$^", "*a", ".**"] {
            assert!(pattern(bad).is_none(), "{bad}");
        }
        for byte in br"\|?+()[]{}" {
            assert!(Pattern::read(&fill(&[b'a', *byte])).is_none());
        }
        assert!(Pattern::read(&fill(&[0x1f])).is_none());
        assert!(Pattern::read(&fill(&[0x7f])).is_none());
        assert!(Pattern::read(&fill(&[b'a', 0, b'b'])).is_none());
    }

    #[test]
    fn accepted_texts() {
        let table: &[(&str, &[&str], &[&str])] = &[
            ("", &["", "a", "abc"], &[]),
            ("^", &["", "a"], &[]),
            ("$", &["", "a"], &[]),
            ("^$", &[""], &["a"]),
            ("b", &["b", "abc"], &["", "ac"]),
            ("^b", &["b", "bc"], &["ab"]),
            ("b$", &["b", "ab"], &["bc"]),
            ("^b$", &["b"], &["bb", "ab", "ba"]),
            ("a.c", &["abc", "xa-cx"], &["ac", "abbc"]),
            ("ab*c", &["ac", "abbbc"], &["abb", "bc"]),
            ("^a*$", &["", "aaa"], &["aab"]),
            ("a*", &["", "bbb"], &[]),
            ("^.*x$", &["x", "abcx"], &["", "xy"]),
            ("WWW.*", &["WWW 2013"], &["WW"]),
        ];
        for (text, accepted, refused) in table {
            let pattern = pattern(text).unwrap();
            for t in *accepted {
                assert!(pattern.accepts(t.as_bytes()), "{text} {t}");
            }
            for t in *refused {
                assert!(!pattern.accepts(t.as_bytes()), "{text} {t}");
            }
        }
    }

    /// The definition by plain backtracking.
    fn fits(units: &[(Unit, bool)], text: &[u8], to_end: bool) -> bool {
        match units.split_first() {
            None => !to_end || text.is_empty(),
            Some(((unit, starred), rest)) => {
                let one = text.first().is_some_and(|b| *unit == Unit::Any || *unit == Unit::Byte(*b));
                if *starred {
                    fits(rest, text, to_end) || (one && fits(units, &text[1..], to_end))
                } else {
                    one && fits(rest, &text[1..], to_end)
                }
            }
        }
    }

    #[test]
    fn agrees_with_backtracking() {
        let mut state = 7u64;
        let mut draw = |n: u64| {
            state = state.wrapping_mul(6364136223846793005).wrapping_add(1442695040888963407);
            (state >> 33) % n
        };
        let mut good = 0;
        for _ in 0..200_000 {
            let bytes: Vec<u8> = (0..draw(7)).map(|_| b"ab.*^$"[draw(6) as usize]).collect();
            let Some(p) = Pattern::read(&fill(&bytes)) else { continue };
            good += 1;
            let text: Vec<u8> = (0..draw(7)).map(|_| b"abc"[draw(3) as usize]).collect();
            let starts = if p.from_start { 0..=0 } else { 0..=text.len() };
            let expected = starts.into_iter().any(|i| fits(&p.units, &text[i..], p.to_end));
            assert_eq!(p.accepts(&text), expected, "{p:?} {text:?}");
        }
        assert!(good > 20_000);
    }
}
