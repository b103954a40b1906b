//! A case as a list of moves without chance: made again, and told in words.

mod asked;
mod words;

pub use asked::{Asked, Numbers};
pub use words::{describe, describe_asked};

use crate::call::{Call, Engine, Made, Station};
use crate::judge::{judge, published, ranks, suggestions, unless_panicked, Difference, History, Once};
use willetcoffer::Card;

/// A station before its load, and what is done on it.
#[derive(Clone, PartialEq, Eq)]
pub struct Replay {
    /// Card and lent buffers.
    pub station: Station,
    /// What is done, one after the other; the first is the load.
    pub moves: Vec<Move>,
    /// What an evaluator is asked after them, if it is.
    pub asked: Option<Asked>,
}

/// A call, the ranks that it is lent, and what was tampered with before it.
#[derive(Clone, PartialEq, Eq)]
pub struct Move {
    /// The tampering, if there is one.
    pub tampering: Option<Tampering>,
    /// The ranks.
    pub ranks: Vec<u8>,
    /// The call.
    pub call: Call,
}

/// What was changed behind the engines' backs.
#[derive(Clone, PartialEq, Eq)]
pub struct Tampering {
    /// The name of the change.
    pub label: &'static str,
    /// Another card, where this was changed.
    pub card: Option<Card>,
    /// Another length of the term table, where this was changed.
    pub length: Option<usize>,
    /// Bytes changed in the lent buffers.
    pub changes: Vec<Change>,
}

/// Bytes changed in one place.
#[derive(Clone, PartialEq, Eq)]
pub struct Change {
    /// 0 the term table, 1 the quad table, 2 the saved run.
    pub buffer: usize,
    /// Where.
    pub at: usize,
    /// What stands there now.
    pub bytes: Vec<u8>,
}

impl Tampering {
    /// A change of which only the name is known.
    pub fn named(label: &'static str) -> Tampering {
        Tampering { label, card: None, length: None, changes: Vec::new() }
    }

    /// What was changed between two states of a station.
    pub fn between(label: &'static str, before: &Station, after: &Station) -> Tampering {
        let card = (before.card != after.card).then(|| after.card.clone());
        let mut changes: Vec<Change> = Vec::new();
        for (buffer, ((_, old), (_, new))) in before.buffers().into_iter().zip(after.buffers()).enumerate() {
            for (at, (_, byte)) in old.iter().zip(new).enumerate().filter(|(_, (old, new))| old != new) {
                match changes.last_mut() {
                    Some(last) if last.buffer == buffer && last.at + last.bytes.len() == at => last.bytes.push(*byte),
                    _ => changes.push(Change { buffer, at, bytes: vec![*byte] }),
                }
            }
        }
        let length = after.term_table.len();
        Tampering { label, card, length: (before.term_table.len() != length).then_some(length), changes }
    }

    /// Makes the change.
    fn apply(&self, station: &mut Station) {
        if let Some(card) = &self.card {
            station.card = card.clone();
        }
        if let Some(length) = self.length {
            station.term_table.resize(length, 0);
        }
        let buffers = station.buffers_mut();
        for Change { buffer, at, bytes } in &self.changes {
            if let Some(place) = buffers[*buffer].get_mut(*at..at + bytes.len()) {
                place.copy_from_slice(bytes);
            }
        }
    }
}

/// A card's script, if it has no each block.
fn once(card: &Card) -> Option<Once> {
    let (_, _, script) = second::check::read(&card.terms, &card.schema, &card.script).ok()?;
    Once::of(&script)
}

impl Replay {
    /// Makes the moves by both engines; the first difference, with the place of its move. Until a load is taken, loads, totals and
    /// suggestions are the only moves.
    pub fn play(&self, engines: [&dyn Engine; 2]) -> Option<(usize, Difference)> {
        let mut place = 0;
        let result = unless_panicked(|| self.play_on(engines, &mut place, &mut |_, _| {}));
        result.err().map(|difference| (place, difference))
    }

    /// The same, each call shown to `see` with its tampering's name.
    fn play_on(
        &self,
        engines: [&dyn Engine; 2],
        place: &mut usize,
        see: &mut dyn FnMut(&Made, &'static str),
    ) -> Result<(), Difference> {
        let mut station = self.station.clone();
        let mut history = History::default();
        let mut loaded = false;
        engines.iter().for_each(|engine| engine.begin());
        for (at, Move { tampering, ranks, call }) in self.moves.iter().enumerate() {
            if !loaded && !matches!(call, Call::Load | Call::Total { .. } | Call::Suggest { .. }) {
                continue;
            }
            *place = at;
            if let Some(tampering) = tampering {
                tampering.apply(&mut station);
            }
            station.ranks.clone_from(ranks);
            let made = Made::new(&station, call, engines);
            see(&made, tampering.as_ref().map_or("", |tampering| tampering.label));
            judge(&made, tampering.is_some(), &mut history)?;
            ranks::turned(&made, engines)?;
            suggestions::held(&made, engines)?;
            published::held(&made, engines, tampering.is_some(), &history)?;
            let (after, answer) = made.into_first();
            station = after;
            history.tampered |= tampering.is_some();
            if (call, answer.code) == (&Call::Load, 0) {
                loaded = true;
                history.once = once(&station.card);
            }
        }
        Ok(())
    }

    /// The stations that the calls are made on, one after the other by this engine, and the one after the last.
    pub fn stations(&self, engine: &dyn Engine) -> Vec<Station> {
        let mut all = Vec::new();
        let mut station = self.station.clone();
        for Move { tampering, ranks, call } in &self.moves {
            if let Some(tampering) = tampering {
                tampering.apply(&mut station);
            }
            station.ranks.clone_from(ranks);
            all.push(station.clone());
            station.call(engine, call);
        }
        all.push(station);
        all
    }

    /// What an evaluator is asked in the end, if it is, with the station that it is asked on.
    pub fn asked_on(&self, engine: &dyn Engine) -> Option<(&Asked, Station)> {
        self.asked.as_ref().zip(self.stations(engine).pop())
    }

    /// The moves in words, each with what both engines gave, and what an evaluator was asked.
    pub fn tell(&self, engines: [&dyn Engine; 2]) -> String {
        let mut text = String::new();
        let mut see = |made: &Made, label: &'static str| text += &describe(made, label, engines);
        // A panic has said its own words; what came before it is told.
        let _ = unless_panicked(|| self.play_on(engines, &mut 0, &mut see));
        let asked = self.asked_on(engines[0]);
        text + &asked.map_or(String::new(), |(asked, station)| describe_asked(asked, &station))
    }

    /// How many bytes it takes: card, pages and changes.
    pub fn bytes(&self) -> usize {
        let card = |card: &Card| card.terms.len() + card.schema.len() + card.script.len();
        let of_move = |m: &Move| {
            let page = if let Call::Page { page, .. } = &m.call { page.len() } else { 0 };
            let tampering = m.tampering.as_ref().map_or(0, |t| {
                t.card.as_ref().map_or(0, card) + t.changes.iter().map(|change| change.bytes.len()).sum::<usize>()
            });
            page + tampering
        };
        card(&self.station.card) + self.moves.iter().map(of_move).sum::<usize>()
    }
}
