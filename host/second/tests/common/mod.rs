//! A station for tests: the buffers that the calls are lent.
#![allow(dead_code)]

use second::limits::*;
use second::rank::BUILT_IN;
use second::term::Term;
use second::types::{Datatype, Type};
use second::Engine;

#[derive(Clone)]
pub struct Station {
    pub ranks: Vec<u8>,
    pub terms: Vec<u8>,
    pub schema: Vec<u8>,
    pub script: Vec<u8>,
    pub term_table: Vec<u8>,
    pub quad_table: Vec<u8>,
    pub saved: Vec<u8>,
}

pub const ENGINES: [Engine<'static>; 2] = [Engine::fast(), Engine::plain()];

impl Station {
    /// Buffers that are not zero, so that a byte left unwritten shows.
    pub fn new(terms: Vec<u8>, schema: Vec<u8>, script: Vec<u8>) -> Station {
        Station {
            ranks: BUILT_IN.to_vec(),
            terms,
            schema,
            script,
            term_table: vec![0xaa; TERM_TABLE],
            quad_table: vec![0xaa; QUAD_TABLE],
            saved: vec![0xaa; SAVED],
        }
    }

    pub fn loaded(terms: Vec<u8>, schema: Vec<u8>, script: Vec<u8>) -> Station {
        let mut station = Station::new(terms, schema, script);
        assert_eq!(station.load(), 0);
        station
    }

    fn buffers(&self) -> [Vec<u8>; 3] {
        [self.term_table.clone(), self.quad_table.clone(), self.saved.clone()]
    }

    /// Loads with both engines, which must agree; a refusal must change nothing.
    pub fn load(&mut self) -> u32 {
        let before = self.buffers();
        let mut results = Vec::new();
        for engine in ENGINES {
            let [mut terms, mut quads, mut saved] = before.clone();
            let inputs = [&self.ranks[..], &self.terms, &self.schema, &self.script];
            let outcome = engine.load(inputs, [&mut terms, &mut quads, &mut saved]);
            results.push((outcome.err().map_or(0, |r| r.number), [terms, quads, saved]));
        }
        assert_eq!(results[0], results[1]);
        let (number, after) = results.remove(0);
        assert!(number == 0 || after == before);
        [self.term_table, self.quad_table, self.saved] = after;
        number
    }

    /// The steps, the state and the wanted graph, or the refusal.
    pub fn run(&mut self, budget: u64, now: i64) -> Result<(u32, u8, u16), u32> {
        let mut results = Vec::new();
        let before = self.saved.clone();
        for engine in ENGINES {
            let mut report = vec![0xaa; RUN_REPORT];
            let mut saved = before.clone();
            let inputs = [&self.ranks[..], &self.terms, &self.schema, &self.script];
            let tables = [&self.term_table[..], &self.quad_table];
            let outcome = engine.run(inputs, tables, &mut saved, (budget, now), &mut report);
            if outcome.is_err() {
                assert_eq!((&saved, &report), (&before, &vec![0xaa; RUN_REPORT]));
            }
            results.push((outcome.map_err(|r| r.number), saved, report));
        }
        assert_eq!(results[0], results[1]);
        let (outcome, saved, report) = results.remove(0);
        self.saved = saved;
        outcome?;
        let steps = u32::from_le_bytes(report[..4].try_into().unwrap());
        assert_eq!(report[5], 0);
        Ok((steps, report[4], u16::from_le_bytes([report[6], report[7]])))
    }

    /// The skipped count, or the refusal; both engines must agree.
    pub fn page(&mut self, graph: u64, page: &[u8]) -> Result<u32, u32> {
        let before = self.buffers();
        let mut results = Vec::new();
        for engine in ENGINES {
            let mut report = vec![0xaa; PAGE_REPORT];
            let [mut terms, mut quads, mut saved] = before.clone();
            let inputs = [&self.ranks[..], &self.terms, &self.schema, &self.script];
            let outcome = engine.page(inputs, [&mut terms, &mut quads, &mut saved], graph, page, &mut report);
            let after = [terms, quads, saved];
            if outcome.is_err() {
                assert_eq!((&after, &report), (&before, &vec![0xaa; PAGE_REPORT]));
            }
            results.push((outcome.map_err(|r| r.number), after, report));
        }
        assert_eq!(results[0], results[1]);
        let (outcome, after, report) = results.remove(0);
        [self.term_table, self.quad_table, self.saved] = after;
        outcome?;
        Ok(u32::from_le_bytes(report.try_into().unwrap()))
    }

    /// The page of a graph, out of a buffer of so many bytes, or the refusal; both engines must agree. The rest of the buffer must be left,
    /// and on a refusal all of it.
    pub fn publish(&self, graph: u64, room: usize) -> Result<Vec<u8>, u32> {
        let mut results = Vec::new();
        for engine in ENGINES {
            let (mut page, mut report) = (vec![0xaa; room], vec![0xaa; PUBLISH_REPORT]);
            let card = [&self.terms[..], &self.schema, &self.script];
            let tables = [&self.term_table[..], &self.quad_table, &self.saved];
            let outcome = engine.publish(card, tables, graph, &mut page, &mut report).map_err(|r| r.number);
            results.push((outcome, page, report));
        }
        assert_eq!(results[0], results[1]);
        let (outcome, mut page, report) = results.remove(0);
        let length = match outcome {
            Ok(()) => u32::from_le_bytes(report.try_into().unwrap()) as usize,
            Err(_) => {
                assert_eq!(report, vec![0xaa; PUBLISH_REPORT]);
                0
            }
        };
        assert!(page[length..].iter().all(|byte| *byte == 0xaa));
        page.truncate(length);
        outcome.map(|()| page)
    }

    /// The terms in use.
    pub fn terms_in_use(&self) -> Vec<Term> {
        self.term_table.chunks(SLOT).map_while(Term::from_slot).collect()
    }

    /// The quads in use.
    pub fn quads(&self) -> Vec<[u16; 4]> {
        let count = usize::from(self.number(2));
        let rows = self.quad_table.chunks(8).take(count);
        rows.map(|row| [0, 2, 4, 6].map(|at| u16::from_le_bytes([row[at], row[at + 1]]))).collect()
    }

    /// The saved number at this place.
    pub fn number(&self, at: usize) -> u16 {
        u16::from_le_bytes([self.saved[at], self.saved[at + 1]])
    }

    /// The term number a variable is bound to.
    pub fn bound(&self, variable: usize) -> Option<u16> {
        (self.saved[22 + variable] == 1).then(|| self.number(38 + 2 * variable))
    }
}

/// p:speed decimal, p:addr integer, p:name string: the roster's schema.
pub fn stock() -> Vec<u8> {
    second::write::schema(&[
        ("p:speed", Datatype::Decimal),
        ("p:addr", Datatype::Integer),
        ("p:name", Datatype::String),
    ])
}

/// The types that the printer writes, or the refusal.
pub fn types(terms: &[Term], schema: &[u8], script: Vec<u8>) -> Result<Vec<(u8, Type)>, u32> {
    let input = [second::write::terms(terms), schema.to_vec(), script].concat();
    let text = second::print_types(&input);
    let plain = second::printer::print_with(second::assignments::solve, &input);
    assert_eq!(text, plain);
    if let Some(number) = text.strip_prefix("refused ") {
        return Err(number.trim_end().parse().unwrap());
    }
    let lines: Vec<&str> = text.lines().collect();
    assert_eq!(lines[0], format!("accepted {}", lines.len() - 1));
    let named = |name: &str| Type::all().find(|t| t.name() == name).unwrap();
    let pairs = lines[1..].iter().map(|line| line.split_once(' ').unwrap());
    Ok(pairs.map(|(v, t)| (v.parse().unwrap(), named(t))).collect())
}
