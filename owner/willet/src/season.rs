//! A card from its load to its end.

use crate::failure::Failure;
use crate::files::CardFile;
use std::collections::HashMap;
use text::tree::{Node, Script, Source};
use text::Legend;
use willetcoffer::limits::PAGE_LIMIT;
use willetcoffer::{Card, Refusal, SavedRun, State, Tables, Term};

/// The answers of one block.
#[derive(Clone, PartialEq, Eq, Debug)]
pub struct Answers {
    /// The variables, those of the blocks around it first.
    pub columns: Vec<String>,
    /// A row for each answer, in the order in which they were taken.
    pub rows: Vec<Vec<Term>>,
    /// The variables' numbers.
    variables: Vec<u8>,
}

#[cfg(test)]
impl Answers {
    /// Answers that no run has given.
    pub fn new(columns: Vec<String>, rows: Vec<Vec<Term>>) -> Answers {
        Answers { columns, rows, variables: Vec::new() }
    }
}

/// A block of the script: whether it is for each answer, and which table its answers go to.
struct BlockKind {
    each: bool,
    table: Option<usize>,
}

/// A loaded card on its way.
pub struct Season {
    card: Card,
    pub legend: Legend,
    tables: Tables,
    saved: SavedRun,
    /// Blocks by the offsets of their records.
    blocks: HashMap<u16, BlockKind>,
    /// A table for each block that has no other within it.
    pub roster: Vec<Answers>,
    /// Steps taken since the load.
    pub steps: u64,
}

/// A page that was taken in.
#[derive(Clone, Copy, PartialEq, Eq, Debug)]
pub struct Taken {
    /// Records without a schema entry, or with an object of another datatype.
    pub skipped: u32,
    /// Quads in the store now.
    pub quads: usize,
}

/// Collects the blocks of a script with the variables around them.
fn collect(node: &Node<Script>, around: &[String], season: &mut Season) {
    match &node.kind {
        Script::Success => {}
        Script::FromNamed(_, then) => collect(then, around, season),
        Script::Sequence(first, second) => {
            collect(first, around, season);
            collect(second, around, season);
        }
        Script::Block(block) => {
            let own = block.pairs.iter().map(|pair| pair.variable.kind.clone());
            let columns: Vec<String> = around.iter().cloned().chain(own).collect();
            let table = block.script.blocks().is_empty().then_some(season.roster.len());
            let offset = u16::try_from(node.span.start).unwrap_or(u16::MAX);
            season.blocks.insert(offset, BlockKind { each: block.each, table });
            if table.is_some() {
                let variables = columns.iter().filter_map(|column| season.number(column)).collect();
                season.roster.push(Answers { columns: columns.clone(), rows: Vec::new(), variables });
            }
            collect(&block.script, &columns, season);
        }
    }
}

/// A refused card, with the places in its text where they are known.
fn explained(name: &str, source: &Source, refusal: Refusal) -> Failure {
    let text = text::print(source);
    match text::parse(&text).and_then(|source| text::check(&source)) {
        Err(error) if error.refusal == refusal.number() => {
            Failure::Script { name: format!("{name}, as text"), text, error: Box::new(error) }
        }
        _ => Failure::refused(name, refusal),
    }
}

impl Season {
    /// Loads a card.
    pub fn load(name: &str, file: CardFile) -> Result<Season, Failure> {
        let CardFile { card, legend, source } = file;
        let mut tables = Tables::new();
        let saved = card.load(&mut tables).map_err(|refusal| explained(name, &source, refusal))?;
        let (blocks, roster) = (HashMap::new(), Vec::new());
        let mut season = Season { card, legend, tables, saved, blocks, roster, steps: 0 };
        collect(&source.script, &[], &mut season);
        Ok(season)
    }

    /// Loads the card anew: nothing fetched, nothing answered.
    pub fn restart(&mut self) -> Result<(), Refusal> {
        self.saved = self.card.load(&mut self.tables)?;
        self.steps = 0;
        self.roster.iter_mut().for_each(|answers| answers.rows.clear());
        Ok(())
    }

    fn number(&self, name: &str) -> Option<u8> {
        self.saved.types().map(|(number, _)| number).find(|number| self.legend.name(*number) == name)
    }

    /// Goes on, a step at a time, until the script ends, wants a page, waits, or has taken so many steps in all.
    pub fn advance(&mut self, now: i64, limit: u64) -> Result<State, Refusal> {
        loop {
            let before = self.saved.stack().last();
            let height = self.saved.stack().count();
            let budget = u64::from(self.steps < limit);
            let report = self.card.run(&self.tables, &mut self.saved, budget, now)?;
            if report.steps == 0 {
                return Ok(report.state);
            }
            self.steps += u64::from(report.steps);
            if let Some(item) = before {
                self.note_answer(item.offset, self.saved.stack().count() > height);
            }
        }
    }

    /// Notes the answer that a block has taken: a once block by any step, an each block where its script came on top of it.
    fn note_answer(&mut self, offset: u16, higher: bool) {
        let Some(BlockKind { each, table: Some(table) }) = self.blocks.get(&offset) else { return };
        if *each && !higher {
            return;
        }
        let answers = &mut self.roster[*table];
        let bound = |variable: &u8| self.saved.binding(*variable).and_then(|number| self.tables.term(number));
        answers.rows.push(answers.variables.iter().filter_map(bound).collect());
    }

    /// The IRI of a graph.
    pub fn iri(&self, graph: u16) -> String {
        let text = self.tables.term(graph).map(|term| terms::plain(&term)).unwrap_or_default();
        self.legend.prefixes.full(&text)
    }

    /// The graphs that have been fetched.
    pub fn fetched(&self) -> Vec<u16> {
        self.saved.fetched().collect()
    }

    /// A fetched graph as a page.
    pub fn publish(&self, graph: u16) -> Result<Vec<u8>, Failure> {
        let page = self.card.publish(&self.tables, &self.saved, graph);
        page.map_err(|refusal| Failure::refused(self.iri(graph), refusal))
    }

    /// Takes in the page of a graph.
    pub fn page(&mut self, graph: u16, bytes: &[u8]) -> Result<Taken, Failure> {
        if bytes.len() > PAGE_LIMIT {
            return Err(crate::commands::over_limit(self.iri(graph), bytes.len()));
        }
        let report = self.card.page(&mut self.tables, &mut self.saved, graph, bytes);
        match report {
            Ok(report) => Ok(Taken { skipped: report.skipped, quads: self.saved.quads() }),
            Err(refusal) => Err(self.no_page(graph, refusal)),
        }
    }

    fn no_page(&self, graph: u16, refusal: Refusal) -> Failure {
        let failure = Failure::refused(self.iri(graph), refusal);
        match refusal {
            Refusal::Room => {
                let (terms, quads, graphs) =
                    (self.tables.terms().count(), self.saved.quads(), self.saved.fetched().count());
                failure.help(format!(
                    "the store holds {terms} terms, {quads} quads and {graphs} graphs; 512, 512 and 64 are its limits"
                ))
            }
            _ => failure,
        }
    }
}
