//! Language ranges: what `langMatches` looks for in a tag.

use crate::limits::TAG;
use crate::note::{note, Note};
use crate::term::{filled, tag_byte, trim};

/// A good language range.
#[derive(Clone, PartialEq, Eq, Debug)]
pub enum LangRange {
    /// `*`: any tag that is there.
    AnyTag,
    /// A tag, a `-*` at its end left out.
    Tag(Vec<u8>),
}

impl LangRange {
    /// Reads the 8 bytes of a range; none if it is bad.
    pub fn read(bytes: &[u8; TAG]) -> Option<LangRange> {
        let length = filled(bytes, |b| tag_byte(b) || b == b'*')?;
        let text = &bytes[..length];
        if text == b"*" {
            return Some(LangRange::AnyTag);
        }
        let tag = text.strip_suffix(b"-*").unwrap_or(text);
        let good = !tag.contains(&b'*') && tag.iter().any(|b| b.is_ascii_lowercase());
        good.then(|| LangRange::Tag(tag.to_vec()))
    }

    /// Whether a string with this tag (filled with zeros) is accepted.
    pub fn accepts(&self, tag: &[u8]) -> bool {
        match self {
            LangRange::AnyTag => {
                let tag = trim(tag);
                note(sort(tag));
                !tag.is_empty()
            }
            LangRange::Tag(range) => match trim(tag).strip_prefix(range.as_slice()) {
                Some(rest) => rest.is_empty() || rest[0] == b'-',
                None => false,
            },
        }
    }
}

/// The note of what `*` is asked about.
fn sort(tag: &[u8]) -> Note {
    if tag.is_empty() {
        Note::Untagged
    } else if tag.iter().all(|b| *b == b'-') {
        Note::HyphensOnly
    } else {
        Note::Tagged
    }
}

#[cfg(test)]
mod tests {
    use super::*;
    use crate::note::take_notes;
    use crate::term::fill;

    #[test]
    fn good_and_bad() {
        for good in ["*", "en", "en-*", "en-gb", "en-", "-e", "en--*", "abcdefgh", "abcdef-*", "-e-*"] {
            assert!(LangRange::read(&fill(good.as_bytes())).is_some(), "{good}");
        }
        for bad in ["", "*-*", "-*", "--*", "en*", "en-*-*", "-", "--", "En", "e1", "**", "*en"] {
            assert!(LangRange::read(&fill(bad.as_bytes())).is_none(), "{bad}");
        }
        assert!(LangRange::read(&fill(b"en\0gb")).is_none());
    }

    #[test]
    fn sorts_of_tags() {
        let accepts = |range: &str, tag: &str| {
            let range = LangRange::read(&fill(range.as_bytes())).unwrap();
            range.accepts(&fill::<TAG>(tag.as_bytes()))
        };
        take_notes();
        accepts("*", "--");
        accepts("*", "");
        accepts("en", "-en");
        assert_eq!(take_notes(), [Note::Untagged, Note::HyphensOnly]);
        accepts("*", "-e");
        assert_eq!(take_notes(), [Note::Tagged]);
    }

    #[test]
    fn accepted_tags() {
        let table: &[(&str, &[&str], &[&str])] = &[
            ("*", &["e", "en", "en-gb", "-", "--", "--------", "abcdefgh"], &[""]),
            ("en", &["en", "en-gb", "en-"], &["", "e", "eng", "fr"]),
            ("en-*", &["en", "en-gb"], &["eng", ""]),
            ("en-", &["en-", "en--a"], &["en", "en-gb"]),
            ("en-gb", &["en-gb", "en-gb-x"], &["en", "en-g"]),
        ];
        for (range, accepted, refused) in table {
            let range = LangRange::read(&fill(range.as_bytes())).unwrap();
            for tag in *accepted {
                assert!(range.accepts(&fill::<TAG>(tag.as_bytes())), "{range:?} {tag}");
            }
            for tag in *refused {
                assert!(!range.accepts(&fill::<TAG>(tag.as_bytes())), "{range:?} {tag}");
            }
        }
    }
}
