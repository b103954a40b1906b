//! The tables that a host lends: terms by number, the stored quads, and the ranks of texts.

use crate::limits::{QUAD_TABLE_WIDTH, QUAD_WIDTH, RANKS_WIDTH, SLOT_WIDTH, TERM_TABLE_WIDTH};
use crate::ranks;
use crate::raw::{TablesMut, TablesRef};
use crate::saved::SavedRun;
use crate::term::Term;

/// A term table and a quad table, and the ranks that all calls on them go by. A load fills the tables anew, a page call writes them, a run
/// call only reads them. Where terms by number and quads agree, so do the bytes. The ranks are the built-in ones unless others are
/// given, and no call writes them.
#[derive(Clone, PartialEq, Eq, Debug)]
pub struct Tables {
    terms: Box<[u8; TERM_TABLE_WIDTH]>,
    quads: Box<[u8; QUAD_TABLE_WIDTH]>,
    ranks: [u8; RANKS_WIDTH],
}

/// A stored quad, by term numbers. Quads are in the order in which a store has them: by graph, then subject, property, object.
#[derive(Clone, Copy, PartialEq, Eq, PartialOrd, Ord, Hash, Debug)]
pub struct Quad {
    /// The graph that it was fetched from.
    pub graph: u16,
    /// The subject.
    pub subject: u16,
    /// The property.
    pub property: u16,
    /// The object.
    pub object: u16,
}

impl Default for Tables {
    fn default() -> Tables {
        Tables::new()
    }
}

impl Tables {
    /// Empty tables, for a load, with the built-in ranks.
    pub fn new() -> Tables {
        Tables::from_bytes(Box::new([0; TERM_TABLE_WIDTH]), Box::new([0; QUAD_TABLE_WIDTH]))
    }

    /// Tables of these bytes, as they were stored, with the built-in ranks.
    pub fn from_bytes(terms: Box<[u8; TERM_TABLE_WIDTH]>, quads: Box<[u8; QUAD_TABLE_WIDTH]>) -> Tables {
        Tables { terms, quads, ranks: ranks::BUILT_IN }
    }

    /// The same tables with a club's own ranks ([`ranks`]). Any bytes may stand here: load, run and page refuse with 21 unless each rank
    /// from 0 to 94 stands once. Tables that were stored get the ranks that they had at their load.
    ///
    /// ```
    /// use willetcoffer::script::{con, filter, less, once, success};
    /// use willetcoffer::{ranks, Card, Refusal, State, Tables, Term};
    /// // Is "B" less than "a"? By the built-in ranks it is not, by bytes it is.
    /// let script = once(&[], filter(less(con(0), con(1))), success());
    /// let card = Card::new(&[Term::string("B")?, Term::string("a")?], &[], script);
    /// let by_byte = std::array::from_fn(|place| place as u8);
    /// for (ranks, state) in [(ranks::BUILT_IN, State::Waiting), (by_byte, State::Ended)] {
    ///     let mut tables = Tables::new().with_ranks(ranks);
    ///     let mut saved = card.load(&mut tables)?;
    ///     assert_eq!(card.run(&tables, &mut saved, 9, 0)?.state, state);
    /// }
    /// assert_eq!(card.load(&mut Tables::new().with_ranks([0; 95])), Err(Refusal::Ranks));
    /// # Ok::<(), Box<dyn std::error::Error>>(())
    /// ```
    pub fn with_ranks(self, ranks: [u8; RANKS_WIDTH]) -> Tables {
        Tables { ranks, ..self }
    }

    /// The ranks that calls go by.
    pub fn ranks(&self) -> &[u8; RANKS_WIDTH] {
        &self.ranks
    }

    /// The term table's bytes.
    pub fn term_bytes(&self) -> &[u8; TERM_TABLE_WIDTH] {
        &self.terms
    }

    /// The quad table's bytes.
    pub fn quad_bytes(&self) -> &[u8; QUAD_TABLE_WIDTH] {
        &self.quads
    }

    /// The term of this number, if it is in use.
    pub fn term(&self, number: u16) -> Option<Term> {
        self.terms.chunks(SLOT_WIDTH).nth(usize::from(number)).and_then(Term::from_slot)
    }

    /// The terms in use, by number.
    pub fn terms(&self) -> impl Iterator<Item = Term> + '_ {
        self.terms.chunks(SLOT_WIDTH).map_while(Term::from_slot)
    }

    /// The number of a term that is in use.
    pub fn number_of(&self, term: &Term) -> Option<u16> {
        let place = self.terms.chunks(SLOT_WIDTH).position(|slot| slot == term.slot())?;
        u16::try_from(place).ok()
    }

    /// The quads in use, rising and each once; their number stands in the saved run.
    pub fn quads<'a>(&'a self, saved: &SavedRun) -> impl Iterator<Item = Quad> + use<'a> {
        self.quads.chunks(QUAD_WIDTH).take(saved.quads()).map(|row| {
            let [graph, subject, property, object] = [0, 2, 4, 6].map(|at| u16::from_le_bytes([row[at], row[at + 1]]));
            Quad { graph, subject, property, object }
        })
    }

    pub(crate) fn lent(&self) -> TablesRef<'_> {
        TablesRef { ranks: &self.ranks, terms: &self.terms[..], quads: &self.quads[..] }
    }

    pub(crate) fn lent_mut(&mut self) -> TablesMut<'_> {
        TablesMut { ranks: &self.ranks, terms: &mut self.terms[..], quads: &mut self.quads[..] }
    }
}
