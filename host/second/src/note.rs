//! What a call meets on its way, noted for a comparison to count.

use std::cell::Cell;

/// Something worth counting.
#[derive(Clone, Copy, PartialEq, Eq, Debug)]
pub enum Note {
    /// `*` was asked about the empty tag.
    Untagged,
    /// `*` was asked about a tag with a letter.
    Tagged,
    /// `*` was asked about a tag of hyphens only.
    HyphensOnly,
    /// The part of a not was unknown.
    Not,
    /// A part of an and was unknown.
    And,
    /// A part of an or was unknown.
    Or,
    /// The boolean of a filter was unknown.
    Filter,
    /// A page's records gave its quads in another order than the store's.
    AnotherOrder,
    /// A page gave a quad twice.
    Twice,
    /// A page's quads went before those of another graph.
    BeforeAnother,
    /// Less on strings was decided by their texts, otherwise than the built-in ranks decide.
    OtherTexts,
    /// Less on strings of one text was decided by their tags, otherwise than the built-in ranks decide.
    OtherTags,
    /// Less on strings was decided by their texts, otherwise than their bytes decide.
    TextsNotByByte,
    /// Less on strings of one text was decided by their tags, otherwise than their bytes decide.
    TagsNotByByte,
    /// Less on strings was decided by the end of a text or tag that begins the other.
    Begins,
    /// The count leaves the second part of an or out.
    OrLeftOut,
    /// The count leaves the second part of an and out.
    AndLeftOut,
    /// The count leaves the second part of a both out.
    BothLeftOut,
    /// The count leaves the second part of a union out.
    UnionLeftOut,
    /// The count takes the second part of an or in, after a false first.
    OrTakenIn,
    /// The count takes the second part of an and in, after a true first.
    AndTakenIn,
    /// The count takes the second part of an or in, after an unknown first.
    OrAfterUnknown,
    /// The count takes the second part of an and in, after an unknown first.
    AndAfterUnknown,
    /// The count takes the second part of a both in.
    BothTakenIn,
    /// The count takes the second part of a union in.
    UnionTakenIn,
}

impl Note {
    /// Those that a call takes.
    pub const OF_CALLS: [Note; 15] = [
        Note::Untagged,
        Note::Tagged,
        Note::HyphensOnly,
        Note::Not,
        Note::And,
        Note::Or,
        Note::Filter,
        Note::AnotherOrder,
        Note::Twice,
        Note::BeforeAnother,
        Note::OtherTexts,
        Note::OtherTags,
        Note::TextsNotByByte,
        Note::TagsNotByByte,
        Note::Begins,
    ];
    /// Those that the count of a tuple takes.
    pub const OF_COUNTS: [Note; 10] = [
        Note::OrLeftOut,
        Note::AndLeftOut,
        Note::BothLeftOut,
        Note::UnionLeftOut,
        Note::OrTakenIn,
        Note::AndTakenIn,
        Note::OrAfterUnknown,
        Note::AndAfterUnknown,
        Note::BothTakenIn,
        Note::UnionTakenIn,
    ];

    /// What it is counted under: a section and a name in it.
    pub fn name(self) -> (&'static str, &'static str) {
        match self {
            Note::Untagged => ("under *", "untagged"),
            Note::Tagged => ("under *", "tagged"),
            Note::HyphensOnly => ("under *", "hyphens only"),
            Note::Not => ("unknown under", "not"),
            Note::And => ("unknown under", "and"),
            Note::Or => ("unknown under", "or"),
            Note::Filter => ("unknown under", "filter"),
            Note::AnotherOrder => ("a page's quads", "in another order"),
            Note::Twice => ("a page's quads", "one twice"),
            Note::BeforeAnother => ("a page's quads", "before another graph's"),
            Note::OtherTexts => ("less on strings", "texts otherwise than built in"),
            Note::OtherTags => ("less on strings", "tags otherwise than built in"),
            Note::TextsNotByByte => ("less on strings", "texts otherwise than by byte"),
            Note::TagsNotByByte => ("less on strings", "tags otherwise than by byte"),
            Note::Begins => ("less on strings", "one begins the other"),
            Note::OrLeftOut => ("second part", "of 52 left out"),
            Note::AndLeftOut => ("second part", "of 53 left out"),
            Note::BothLeftOut => ("second part", "of 62 left out"),
            Note::UnionLeftOut => ("second part", "of 63 left out"),
            Note::OrTakenIn => ("second part", "of 52 taken in"),
            Note::AndTakenIn => ("second part", "of 53 taken in"),
            Note::OrAfterUnknown => ("second part", "of 52 taken in after unknown"),
            Note::AndAfterUnknown => ("second part", "of 53 taken in after unknown"),
            Note::BothTakenIn => ("second part", "of 62 taken in"),
            Note::UnionTakenIn => ("second part", "of 63 taken in"),
        }
    }
}

thread_local! {
    /// A bit for each note.
    static TAKEN: Cell<u32> = const { Cell::new(0) };
}

/// Takes a note.
pub fn note(note: Note) {
    TAKEN.set(TAKEN.get() | 1 << note as u8);
}

/// The notes of this thread since this was called last, each once.
pub fn take_notes() -> Vec<Note> {
    let taken = TAKEN.take();
    let all = Note::OF_CALLS.into_iter().chain(Note::OF_COUNTS);
    all.filter(|note| taken >> *note as u8 & 1 == 1).collect()
}

#[cfg(test)]
mod tests {
    use super::*;

    #[test]
    fn each_once_until_taken() {
        take_notes();
        for each in [Note::Filter, Note::Untagged, Note::Filter] {
            note(each);
        }
        assert_eq!(take_notes(), [Note::Untagged, Note::Filter]);
        assert!(take_notes().is_empty());
        let all = [&Note::OF_CALLS[..], &Note::OF_COUNTS].concat();
        all.iter().copied().for_each(note);
        assert_eq!(take_notes(), all);
    }
}
