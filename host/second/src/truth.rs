//! Truth values: document 02, Ask 5.

/// What a boolean comes to.
#[derive(Clone, Copy, PartialEq, Eq, Debug)]
pub enum Truth {
    /// It holds.
    True,
    /// It does not.
    False,
    /// A comparison or a test holds no value.
    Unknown,
}

use Truth::{False, True, Unknown};

impl From<bool> for Truth {
    fn from(holds: bool) -> Truth {
        if holds {
            True
        } else {
            False
        }
    }
}

/// Of what a comparison or a test finds; none where it holds no value.
impl From<Option<bool>> for Truth {
    fn from(found: Option<bool>) -> Truth {
        found.map_or(Unknown, Truth::from)
    }
}

impl Truth {
    /// The table of not.
    #[allow(clippy::should_implement_trait)]
    pub fn not(self) -> Truth {
        match self {
            True => False,
            False => True,
            Unknown => Unknown,
        }
    }

    /// The table of and.
    pub fn and(self, other: Truth) -> Truth {
        match (self, other) {
            (True, True) => True,
            (True, False) => False,
            (True, Unknown) => Unknown,
            (False, True) => False,
            (False, False) => False,
            (False, Unknown) => False,
            (Unknown, True) => Unknown,
            (Unknown, False) => False,
            (Unknown, Unknown) => Unknown,
        }
    }

    /// The table of or.
    pub fn or(self, other: Truth) -> Truth {
        match (self, other) {
            (True, True) => True,
            (True, False) => True,
            (True, Unknown) => True,
            (False, True) => True,
            (False, False) => False,
            (False, Unknown) => Unknown,
            (Unknown, True) => True,
            (Unknown, False) => Unknown,
            (Unknown, Unknown) => Unknown,
        }
    }

    /// Whether a filter with this boolean holds.
    pub fn holds(self) -> bool {
        match self {
            True => true,
            False => false,
            Unknown => false,
        }
    }
}

#[cfg(test)]
mod tests {
    use super::*;

    const ALL: [Truth; 3] = [True, False, Unknown];

    /// "Not of unknown is unknown."
    #[test]
    fn not() {
        assert_eq!(True.not(), False);
        assert_eq!(False.not(), True);
        assert_eq!(Unknown.not(), Unknown);
    }

    /// "And is false if either side is false, .. otherwise an unknown side makes them unknown."
    #[test]
    fn and() {
        assert_eq!(False.and(False), False);
        assert_eq!(False.and(True), False);
        assert_eq!(False.and(Unknown), False);
        assert_eq!(True.and(False), False);
        assert_eq!(Unknown.and(False), False);
        assert_eq!(Unknown.and(True), Unknown);
        assert_eq!(Unknown.and(Unknown), Unknown);
        assert_eq!(True.and(Unknown), Unknown);
        assert_eq!(True.and(True), True);
    }

    /// "Or is true if either side is true, otherwise an unknown side makes them unknown."
    #[test]
    fn or() {
        assert_eq!(True.or(True), True);
        assert_eq!(True.or(False), True);
        assert_eq!(True.or(Unknown), True);
        assert_eq!(False.or(True), True);
        assert_eq!(Unknown.or(True), True);
        assert_eq!(Unknown.or(False), Unknown);
        assert_eq!(Unknown.or(Unknown), Unknown);
        assert_eq!(False.or(Unknown), Unknown);
        assert_eq!(False.or(False), False);
    }

    /// "A filter holds only on true."
    #[test]
    fn filter() {
        assert_eq!(ALL.map(Truth::holds), [true, false, false]);
    }

    /// The laws that a reader counts on: either order, any grouping, not twice, De Morgan; and document 01 where all is known.
    #[test]
    fn laws() {
        for a in ALL {
            assert_eq!(a.not().not(), a);
            for b in ALL {
                assert_eq!((a.and(b), a.or(b)), (b.and(a), b.or(a)));
                assert_eq!(a.and(b).not(), a.not().or(b.not()));
                for c in ALL {
                    assert_eq!((a.and(b).and(c), a.or(b).or(c)), (a.and(b.and(c)), a.or(b.or(c))));
                }
            }
        }
        for a in [true, false] {
            assert_eq!(Truth::from(a).not(), Truth::from(!a));
            for b in [true, false] {
                assert_eq!(Truth::from(a).and(Truth::from(b)), Truth::from(a && b));
                assert_eq!(Truth::from(a).or(Truth::from(b)), Truth::from(a || b));
            }
        }
    }
}
