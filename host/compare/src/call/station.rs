//! A station: what the calls are lent, and one call on it.

use super::Engine;
use second::eval::Quad;
use willetcoffer::kinds::PAGE;
use willetcoffer::limits::{
    FETCHED_OFFSET, GRAPH_LIMIT, PAGE_REPORT_WIDTH, PUBLISH_REPORT_WIDTH, QUAD_TABLE_WIDTH, QUAD_WIDTH,
    RUN_REPORT_WIDTH, SAVED_WIDTH, SLOT_WIDTH, SUGGEST_REPORT_WIDTH, TERM_TABLE_WIDTH, TOTAL_REPORT_WIDTH,
};
use willetcoffer::ranks::BUILT_IN;
use willetcoffer::saved::{GRAPHS, QUADS};
use willetcoffer::term::body_width;
use willetcoffer::{Card, PageReport, RunReport, Suggestion};

/// A card, ranks and lent buffers of any lengths.
#[derive(Clone, PartialEq, Eq)]
pub struct Station {
    /// Listed terms, schema and script.
    pub card: Card,
    /// The ranks that calls are lent.
    pub ranks: Vec<u8>,
    /// The term table.
    pub term_table: Vec<u8>,
    /// The quad table.
    pub quad_table: Vec<u8>,
    /// The saved run.
    pub saved: Vec<u8>,
    /// The buffer of a page that is published, while the call is made; else it is empty.
    pub page: Vec<u8>,
}

/// A call.
#[derive(Clone, PartialEq, Eq, Debug)]
pub enum Call {
    /// A load.
    Load,
    /// A run.
    Run {
        /// Steps to take.
        budget: u64,
        /// The value of now.
        now: i64,
        /// The length of the lent report.
        report: usize,
    },
    /// A page.
    Page {
        /// The graph's number.
        graph: u64,
        /// Its page.
        page: Vec<u8>,
        /// The length of the lent report.
        report: usize,
    },
    /// A graph to be published.
    Publish {
        /// The graph's number.
        graph: u64,
        /// The length of the lent buffer.
        room: usize,
        /// The length of the lent report.
        report: usize,
    },
    /// A total.
    Total {
        /// The length of the lent report.
        report: usize,
    },
    /// A suggestion.
    Suggest {
        /// The length of the lent report.
        report: usize,
    },
}

impl Call {
    /// A run with a report of the right length.
    pub fn run(budget: u64, now: i64) -> Call {
        Call::Run { budget, now, report: RUN_REPORT_WIDTH }
    }

    /// A page with a report of the right length.
    pub fn page(graph: usize, page: Vec<u8>) -> Call {
        Call::Page { graph: graph as u64, page, report: PAGE_REPORT_WIDTH }
    }

    /// A graph to be published, with a report of the right length.
    pub fn publish(graph: usize, room: usize) -> Call {
        Call::Publish { graph: graph as u64, room, report: PUBLISH_REPORT_WIDTH }
    }

    /// A total with a report of the right length.
    pub fn total() -> Call {
        Call::Total { report: TOTAL_REPORT_WIDTH }
    }

    /// A suggestion with a report of the right length.
    pub fn suggest() -> Call {
        Call::Suggest { report: SUGGEST_REPORT_WIDTH }
    }

    /// Its name in the coverage table.
    pub fn name(&self) -> &'static str {
        match self {
            Call::Load => "load",
            Call::Run { .. } => "run",
            Call::Page { .. } => "page",
            Call::Publish { .. } => "publish",
            Call::Total { .. } => "total",
            Call::Suggest { .. } => "suggest",
        }
    }

    /// Whether it is lent tables; a total and a suggestion are lent the card alone.
    pub fn is_lent(&self) -> bool {
        !matches!(self, Call::Total { .. } | Call::Suggest { .. })
    }

    /// Whether it is lent ranks too; a graph is published without.
    pub fn is_ranked(&self) -> bool {
        self.is_lent() && !matches!(self, Call::Publish { .. })
    }

    /// The length of its report; a load has none.
    pub fn report(&self) -> usize {
        match self {
            Call::Load => 0,
            Call::Run { report, .. } | Call::Page { report, .. } | Call::Publish { report, .. } => *report,
            Call::Total { report } | Call::Suggest { report } => *report,
        }
    }

    /// The length of the buffer that it is lent for a page; none has one but a graph to be published.
    pub fn room(&self) -> usize {
        match self {
            Call::Publish { room, .. } => *room,
            _ => 0,
        }
    }
}

/// What stands in a lent report and in the buffer of a page before a call.
pub const UNWRITTEN: u8 = 0xaa;

/// What a call gave: its number, its report and the buffer of its page.
#[derive(Clone, PartialEq, Eq, Debug)]
pub struct Answer {
    /// 0 or the refusal.
    pub code: u32,
    /// The report's bytes; [`UNWRITTEN`] where nothing was written.
    pub report: Vec<u8>,
    /// The bytes of the buffer that a graph was published into, in the same way.
    pub page: Vec<u8>,
}

impl Answer {
    /// The report of a run that was not refused.
    pub fn ran(&self) -> Option<RunReport> {
        RunReport::from_bytes(&self.report).filter(|_| self.code == 0)
    }

    /// The report of a total that was not refused.
    pub fn total(&self) -> Option<u32> {
        let report = self.report[..].try_into().ok().filter(|_| self.code == 0);
        report.map(u32::from_le_bytes)
    }

    /// The report of a suggestion that was not refused.
    pub fn suggested(&self) -> Option<Suggestion> {
        Suggestion::from_bytes(&self.report).filter(|_| self.code == 0)
    }

    /// The page of a graph that was published, where the report's length lies within the buffer, and the bytes after it.
    pub fn published(&self) -> Option<(&[u8], &[u8])> {
        let report = self.report[..].try_into().ok().filter(|_| self.code == 0)?;
        self.page.split_at_checked(u32::from_le_bytes(report) as usize)
    }

    /// Whether report and buffer are as they were lent.
    pub fn is_unwritten(&self) -> bool {
        self.report.iter().chain(&self.page).all(|byte| *byte == UNWRITTEN)
    }

    /// How two answers differ.
    pub fn first_difference(&self, other: &Answer) -> Option<String> {
        if self == other {
            return None;
        }
        // A page is not told whole.
        let [a, b] = [self, other].map(|answer| Answer { page: Vec::new(), ..answer.clone() });
        if a != b {
            return Some(format!("answers {a:x?} and {b:x?}"));
        }
        differs("page", &self.page, &other.page)
    }

    /// The report of a page that was not refused.
    pub fn paged(&self) -> Option<PageReport> {
        PageReport::from_bytes(&self.report).filter(|_| self.code == 0)
    }
}

/// Where two buffers of this name differ first.
fn differs(name: &str, a: &[u8], b: &[u8]) -> Option<String> {
    let at = a.iter().zip(b).position(|(a, b)| a != b).or((a.len() != b.len()).then_some(0))?;
    let [a, b] = [a, b].map(|bytes| &bytes[at..(at + 16).min(bytes.len())]);
    Some(format!("{name} differs at {at}: {a:02x?} and {b:02x?}"))
}

impl Station {
    /// Buffers of the right lengths, each byte the same, and the built-in ranks.
    pub fn new(card: Card, byte: u8) -> Station {
        let [term_table, quad_table, saved] =
            [TERM_TABLE_WIDTH, QUAD_TABLE_WIDTH, SAVED_WIDTH].map(|width| vec![byte; width]);
        Station { card, ranks: BUILT_IN.to_vec(), term_table, quad_table, saved, page: Vec::new() }
    }

    /// The buffers with their names.
    pub fn buffers(&self) -> [(&'static str, &Vec<u8>); 3] {
        [("term table", &self.term_table), ("quad table", &self.quad_table), ("saved run", &self.saved)]
    }

    /// The same, to be changed.
    pub fn buffers_mut(&mut self) -> [&mut Vec<u8>; 3] {
        [&mut self.term_table, &mut self.quad_table, &mut self.saved]
    }

    /// Makes the call by this engine.
    pub fn call(&mut self, engine: &dyn Engine, call: &Call) -> Answer {
        let mut report = self.lend(call);
        let code = engine.call(self, call, &mut report);
        self.answered(code, report)
    }

    /// Lends what is written beside the tables: the buffer of a page, and the report, which it gives.
    pub fn lend(&mut self, call: &Call) -> Vec<u8> {
        self.page = vec![UNWRITTEN; call.room()];
        vec![UNWRITTEN; call.report()]
    }

    /// What a call gave that was lent this report.
    pub fn answered(&mut self, code: u32, report: Vec<u8>) -> Answer {
        Answer { code, report, page: std::mem::take(&mut self.page) }
    }

    /// The saved number at this place, 0 in a saved run of another length.
    pub fn number(&self, at: usize) -> usize {
        self.saved.get(at..at + 2).map_or(0, |b| usize::from(u16::from_le_bytes([b[0], b[1]])))
    }

    /// Writes a saved number.
    pub fn set(&mut self, at: usize, number: usize) {
        if let Some(place) = self.saved.get_mut(at..at + 2) {
            place.copy_from_slice(&(number as u16).to_le_bytes());
        }
    }

    /// How many term slots are in use.
    pub fn used(&self) -> usize {
        self.term_table.chunks(SLOT_WIDTH).take_while(|slot| slot[0] != 0).count()
    }

    /// The fetched graphs' numbers.
    pub fn fetched(&self) -> Vec<usize> {
        let count = self.number(GRAPHS).min(GRAPH_LIMIT);
        (0..count).map(|i| self.number(FETCHED_OFFSET + 2 * i)).collect()
    }

    /// Whether a graph is among them.
    pub fn has_fetched(&self, graph: u64) -> bool {
        self.fetched().iter().any(|fetched| *fetched as u64 == graph)
    }

    /// The quads in use, as they stand.
    pub fn quads(&self) -> Vec<Quad> {
        let (numbers, _) = self.quad_table.as_chunks::<2>();
        let (quads, _) = numbers.as_chunks::<4>();
        let count = self.number(QUADS).min(quads.len());
        quads[..count].iter().map(|quad| quad.map(u16::from_le_bytes)).collect()
    }

    /// Lets these quads be the ones in use, as many as there is room for.
    pub fn set_quads(&mut self, quads: &[Quad]) {
        let count = quads.len().min(self.quad_table.len() / QUAD_WIDTH);
        self.quad_table.fill(0);
        for (place, number) in self.quad_table.chunks_mut(2).zip(quads.iter().flatten()) {
            place.copy_from_slice(&number.to_le_bytes());
        }
        self.set(QUADS, count);
    }

    /// A graph's quads as records of a page, in their order, read by the widths of slots and quads alone.
    pub fn triples(&self, graph: u64) -> impl Iterator<Item = Vec<u8>> + '_ {
        let term = |number: u16| {
            let slot = self.term_table.get(SLOT_WIDTH * usize::from(number)..).unwrap_or_default();
            let kind = slot.first().copied().unwrap_or(0);
            (kind, slot.get(1..1 + body_width(kind).unwrap_or(0)).unwrap_or_default())
        };
        let quads = self.quads().into_iter().filter(move |quad| u64::from(quad[0]) == graph);
        quads.map(move |[_, subject, property, object]| {
            let (kind, object) = term(object);
            [&[kind.wrapping_add(PAGE)], term(subject).1, term(property).1, object].concat()
        })
    }

    /// Where two stations differ first.
    pub fn first_difference(&self, other: &Station) -> Option<String> {
        let mut pairs = self.buffers().into_iter().zip(other.buffers());
        pairs.find_map(|((name, a), (_, b))| differs(name, a, b))
    }
}
