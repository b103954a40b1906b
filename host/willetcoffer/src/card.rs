//! A card and its calls.

use crate::kinds;
use crate::limits::{
    PAGE_REPORT_WIDTH, PUBLISH_REPORT_WIDTH, RUN_REPORT_WIDTH, SAVED_WIDTH, SUGGEST_REPORT_WIDTH, TEXT_WIDTH,
    TOTAL_REPORT_WIDTH,
};
use crate::page;
use crate::raw;
use crate::refusal::Refusal;
use crate::report::{PageReport, RunReport};
use crate::saved::SavedRun;
use crate::script::Script;
use crate::suggestion::Suggestion;
use crate::tables::Tables;
use crate::term::Term;
use crate::types::Datatype;

/// A card: listed terms, schema and script, as bytes. Any bytes may stand here; [`Card::load`] says what is wrong with them.
/// Every call is lent the card that was loaded.
#[derive(Clone, PartialEq, Eq, Debug, Default)]
pub struct Card {
    /// The listed terms' records.
    pub terms: Vec<u8>,
    /// The schema's records.
    pub schema: Vec<u8>,
    /// The script's records, in prefix order.
    pub script: Vec<u8>,
}

impl Card {
    /// A card with these terms, schema entries and script. Constants of the script number the terms from 0 as they stand here;
    /// the properties of the schema that are not among them follow in schema order.
    ///
    /// A schema entry is a property and the datatype of its objects. For a property that is no URI a bad record is written,
    /// which the load refuses with 4.
    pub fn new(terms: &[Term], schema: &[(Term, Datatype)], script: Script) -> Card {
        let terms = terms.iter().flat_map(Term::record).copied().collect();
        let schema = schema.iter().flat_map(|(property, datatype)| {
            let body = property.uri_body().unwrap_or(&[0; TEXT_WIDTH]);
            [&[kinds::ENTRY], body, &[datatype.code()]].concat()
        });
        Card { terms, schema: schema.collect(), script: script.into_bytes() }
    }

    /// Terms, schema and script joined, as the type printer reads them.
    pub fn joined(&self) -> Vec<u8> {
        [&self.terms[..], &self.schema, &self.script].concat()
    }

    /// Loads the card: the tables get its terms and no quad, and the saved run has the reported types.
    ///
    /// Refused with 21, then 2 to 9, and then the tables keep what they had.
    ///
    /// ```
    /// use willetcoffer::script::{con, once, pattern, success, var};
    /// use willetcoffer::{Card, Refusal, Tables, Term};
    /// // Who is called Mallard, and by which property?
    /// let script = once(&[(0, None), (1, None)], pattern([var(0), var(0), var(1), con(0)]), success());
    /// let card = Card::new(&[Term::string("Mallard")?], &[], script);
    /// let saved = card.load(&mut Tables::new())?;
    /// assert_eq!(saved.variable_type(1).map(|t| t.to_string()).as_deref(), Some("range(xsd:string)"));
    /// // A listed term twice.
    /// let twice = Card { terms: card.terms.repeat(2), ..card };
    /// assert_eq!(twice.load(&mut Tables::new()), Err(Refusal::TermTwice));
    /// # Ok::<(), Box<dyn std::error::Error>>(())
    /// ```
    pub fn load(&self, tables: &mut Tables) -> Result<SavedRun, Refusal> {
        let mut saved = SavedRun::from_bytes([0; SAVED_WIDTH]);
        Refusal::unless_zero(raw::load(self, tables.lent_mut(), saved.as_bytes_mut()))?;
        Ok(saved)
    }

    /// Takes up to `budget` steps at the time `now`, in seconds from 1970-01-01T00:00:00Z.
    ///
    /// Refused with 21, 10 and 11, and then the saved run keeps what it had.
    pub fn run(&self, tables: &Tables, saved: &mut SavedRun, budget: u64, now: i64) -> Result<RunReport, Refusal> {
        let mut report = [0; RUN_REPORT_WIDTH];
        Refusal::unless_zero(raw::run(self, tables.lent(), saved.as_bytes_mut(), budget, now, &mut report))?;
        Ok(RunReport::from_bytes(&report).expect("a run call that is not refused writes its report"))
    }

    /// Takes in the page of a graph, which is named by its term number.
    ///
    /// Refused with 21, 10, 12, 13 and 14, and then tables and saved run keep what they had.
    pub fn page(
        &self,
        tables: &mut Tables,
        saved: &mut SavedRun,
        graph: impl Into<u64>,
        page: &[u8],
    ) -> Result<PageReport, Refusal> {
        let mut report = [0; PAGE_REPORT_WIDTH];
        let graph = graph.into();
        Refusal::unless_zero(raw::page(self, tables.lent_mut(), saved.as_bytes_mut(), graph, page, &mut report))?;
        Ok(PageReport { skipped: u32::from_le_bytes(report) })
    }

    /// A fetched graph as a page: its triples as records in rising order of their bytes, each once. Taken in at once for the same graph
    /// it skips nothing and leaves the store as it was; but a page call takes at most
    /// [`PAGE_LIMIT`](crate::limits::PAGE_LIMIT) bytes, and only a graph that no page call has filled has more. Two stations that hold the
    /// same triples of a graph publish the same bytes, however their terms are numbered.
    ///
    /// Refused with 10 and 22. The ranks are not asked.
    ///
    /// ```
    /// use willetcoffer::script::success;
    /// use willetcoffer::{page::triple, Card, Datatype, Refusal, Tables, Term};
    /// let (yard, addr) = (Term::uri("http://club.example/yard")?, Term::uri("p:addr")?);
    /// let card = Card::new(&[yard], &[(addr, Datatype::Integer)], success());
    /// let mut tables = Tables::new();
    /// let mut saved = card.load(&mut tables)?;
    /// assert_eq!(card.publish(&tables, &saved, 0u16), Err(Refusal::NotFetched));
    ///
    /// let loco = Term::uri("u:loco")?;
    /// let three = triple(&loco, &addr, &Term::integer(3)?).ok_or("no URI")?;
    /// let more = triple(&loco, &addr, &Term::integer(256)?).ok_or("no URI")?;
    /// card.page(&mut tables, &mut saved, 0u16, &[&three[..], &more, &three].concat())?;
    /// // By bytes: 256, little endian, begins with a zero.
    /// let published = card.publish(&tables, &saved, 0u16)?;
    /// assert_eq!(published, [more, three].concat());
    ///
    /// // A second station takes it in, and has the same to publish.
    /// let mut others = Tables::new();
    /// let mut other = card.load(&mut others)?;
    /// assert_eq!(card.page(&mut others, &mut other, 0u16, &published)?.skipped, 0);
    /// assert_eq!(card.publish(&others, &other, 0u16)?, published);
    /// # Ok::<(), Box<dyn std::error::Error>>(())
    /// ```
    pub fn publish(&self, tables: &Tables, saved: &SavedRun, graph: impl Into<u64>) -> Result<Vec<u8>, Refusal> {
        let graph = graph.into();
        let quads = tables.quads(saved).filter(|quad| u64::from(quad.graph) == graph).count();
        let mut page = vec![0; quads * page::LONGEST_RECORD];
        let length = self.publish_into(tables, saved, graph, &mut page)?;
        page.truncate(length);
        Ok(page)
    }

    /// The same into the front of a buffer of the host's own, whose other bytes stay; gives the page's length.
    ///
    /// Refused with 10, 22, and 23 where the buffer is shorter than the page; then it keeps what it had.
    pub fn publish_into(
        &self,
        tables: &Tables,
        saved: &SavedRun,
        graph: impl Into<u64>,
        page: &mut [u8],
    ) -> Result<usize, Refusal> {
        let mut report = [0; PUBLISH_REPORT_WIDTH];
        let graph = graph.into();
        Refusal::unless_zero(raw::publish(self, tables.lent(), saved.as_bytes(), graph, page, &mut report))?;
        Ok(u32::from_le_bytes(report) as usize)
    }

    /// How many steps the script takes in all, counted from its load: as many as it has records of kinds 71 to 74. The steps that
    /// runs report are never more, and the script has ended exactly when they are as many, whatever pages came between. None for a
    /// script with an each block, which has no such total.
    ///
    /// Refused with 2 to 7; types are not asked, so a card that [`Card::load`] refuses with 8 or 9 has its total.
    ///
    /// ```
    /// use willetcoffer::script::{con, each, empty, from_named, once, success};
    /// use willetcoffer::{Card, Term};
    /// let yard = Term::uri("http://club.example/yard")?;
    /// let card = |script| Card::new(&[yard], &[], from_named(con(0), script));
    /// assert_eq!(card(once(&[], empty(), success())).total()?, Some(3));
    /// assert_eq!(card(each(&[], empty(), success())).total()?, None);
    /// # Ok::<(), Box<dyn std::error::Error>>(())
    /// ```
    pub fn total(&self) -> Result<Option<u32>, Refusal> {
        let mut report = [0; TOTAL_REPORT_WIDTH];
        Refusal::unless_zero(raw::total(self, &mut report))?;
        Ok(Some(u32::from_le_bytes(report)).filter(|steps| *steps != 0))
    }

    /// Names the single written type that would do where [`Card::load`] refuses the card with 9: the lowest open variable for which there
    /// is one, and for it the type of the lowest code. Written at that variable, with nothing else changed, it lets the card load.
    ///
    /// Refused with 2 to 8, as the load is; 9 is answered here.
    ///
    /// ```
    /// use willetcoffer::script::{both, con, once, pattern, success, var, Script};
    /// use willetcoffer::{Card, Datatype, Refusal, Suggestion, Tables, Term, Type};
    /// // Which property has the speed of something as its object? The variables are $g 0, $s 1, $p 2 and $o 3.
    /// let of = |property| pattern([var(0), var(1), property, var(3)]);
    /// let card = |written| {
    ///     let script = once(&[(0, None), (1, None), (2, written), (3, None)], both(of(var(2)), of(con(0))), success());
    ///     Card::new(&[], &[(Term::uri("p:speed").unwrap(), Datatype::Decimal)], script)
    /// };
    /// // A decimal that range(decimal) goes with, or an integer that range(integer) goes with: neither is above the other.
    /// assert_eq!(card(None).load(&mut Tables::new()), Err(Refusal::NoGreatest));
    /// let written_type = Type::Range(Datatype::Decimal);
    /// assert_eq!(card(None).suggest(), Ok(Suggestion::Written { variable: 2, written_type }));
    /// assert!(card(Some(written_type)).load(&mut Tables::new()).is_ok());
    /// assert_eq!(card(Some(written_type)).suggest(), Ok(Suggestion::Accepted));
    /// ```
    pub fn suggest(&self) -> Result<Suggestion, Refusal> {
        let mut report = [0; SUGGEST_REPORT_WIDTH];
        Refusal::unless_zero(raw::suggest(self, &mut report))?;
        Ok(Suggestion::from_bytes(&report).expect("a suggest call that is not refused writes its report"))
    }
}
