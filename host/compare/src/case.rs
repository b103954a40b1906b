//! One case: its words and script, its load, its list of calls, all of it given to two engines.

use crate::before;
use crate::call::evaluator::Evaluator;
use crate::call::{Answer, Call, Engine, Made, Station};
use crate::count::{Coverage, Met};
use crate::draw::pool::Size;
use crate::draw::Draw;
use crate::judge::{judge, published, ranks, suggestions, Breach, Difference, History, Once};
use crate::records::open_pairs;
use crate::replay::{describe, describe_asked, Move, Replay, Tampering};
use second::check::Loaded;
use std::time::Duration;
use willetcoffer::{SavedRun, State, Suggestion};

/// A case under way.
pub struct Case<'a> {
    draw: Draw,
    engines: [&'a dyn Engine; 2],
    coverage: &'a mut Coverage,
    station: Station,
    history: History,
    last: Option<Answer>,
    sort: &'static str,
    watch: Watch,
    evaluator: Option<&'a mut Evaluator>,
    /// The ranks lent at the load.
    ranks: Vec<u8>,
    /// What the load has read.
    loaded: Option<Loaded>,
    /// Whether each call is made again by ranks turned round.
    turning: bool,
    /// The slowest call of each engine.
    pub slowest: [Duration; 2],
}

/// What a case goes on with where a call is to have left nothing.
struct Kept {
    station: Station,
    last: Option<Answer>,
    steps: u64,
    stores: usize,
}

/// Each so-manieth case is made by ranks turned round too.
const TURNING: u64 = 4;

/// What is done with each call beside comparing it.
pub enum Watch {
    /// Nothing.
    Nothing,
    /// It is printed.
    Print,
    /// It is kept, to be made again.
    Keep(Box<Replay>),
}

impl<'a> Case<'a> {
    /// Draws the words and the script of a case.
    pub fn new(seed: u64, index: u64, engines: [&'a dyn Engine; 2], coverage: &'a mut Coverage) -> Self {
        let (draw, station, sort) = Draw::new(seed, index);
        engines.iter().for_each(|engine| engine.begin());
        Case {
            draw,
            engines,
            coverage,
            ranks: station.ranks.clone(),
            loaded: None,
            turning: index.is_multiple_of(TURNING),
            station,
            history: History::default(),
            last: None,
            sort,
            watch: Watch::Nothing,
            evaluator: None,
            slowest: [Duration::ZERO; 2],
        }
    }

    /// The same, each call printed.
    pub fn printing(self) -> Self {
        Case { watch: Watch::Print, ..self }
    }

    /// The same, each call kept.
    pub fn keeping(self) -> Self {
        let replay = Replay { station: self.station.clone(), moves: Vec::new(), asked: None };
        Case { watch: Watch::Keep(Box::new(replay)), ..self }
    }

    /// The same, tuples given to the evaluators after each call.
    pub fn evaluating(self, evaluator: &'a mut Evaluator) -> Self {
        Case { evaluator: Some(evaluator), ..self }
    }

    /// What was kept: the moves up to the last call.
    pub fn kept(self) -> Option<Replay> {
        match self.watch {
            Watch::Keep(replay) => Some(*replay),
            _ => None,
        }
    }

    /// The joined inputs, as the type printer reads them.
    pub fn joined(&self) -> Vec<u8> {
        self.station.card.joined()
    }

    /// The same in the widths of before, if the card can be read.
    pub fn joined_before(&self) -> Option<Vec<u8>> {
        before::joined(&self.station.card)
    }

    /// Makes all calls; the first difference ends the case.
    pub fn run(&mut self) -> Result<(), Difference> {
        self.print()?;
        let answer = self.call(&Call::Load, None)?;
        self.coverage.load(self.sort, &answer);
        let loads = answer.code == 0;
        if loads {
            self.loaded();
        }
        if self.draw.rng.one_in(4) {
            self.spoiled_call(Call::Load)?;
        }
        self.total()?;
        self.suggest()?;
        if !loads {
            return Ok(());
        }
        if self.draw.rng.one_in(2) {
            let call = match self.draw.rng.below(6) {
                0 => Call::total(),
                1 => Call::suggest(),
                _ => Call::Load,
            };
            self.odd_call(call)?;
        }
        for _ in 0..self.draw.rng.within(3, 10) {
            self.draw.other_ranks(&mut self.station);
            if self.draw.rng.one_in(4) {
                self.tampered_call()?;
            } else if self.has_ended() && self.draw.rng.percent(70) {
                break;
            } else {
                let call = self.draw.next_call(&self.station, self.last.as_ref());
                let few = if self.draw.pool.size == Size::Full { 2 } else { 8 };
                if self.draw.rng.one_in(few) {
                    self.spoiled_call(call.clone())?;
                }
                if self.draw.rng.one_in(4) {
                    self.odd_call(call.clone())?;
                }
                self.call(&call, None)?;
            }
            if self.draw.publishes(5) {
                self.publish()?;
            }
        }
        if self.station.fetched().is_empty() && !self.draw.publishes(4) {
            return Ok(());
        }
        self.publish()
    }

    /// Publishes a graph, now and then of another store or lent something odd. The case goes on as if it had not been done.
    fn publish(&mut self) -> Result<(), Difference> {
        let kept = self.kept_back();
        self.draw.turn_chance();
        match self.draw.rng.weighted(&[10, 8, 2]) {
            0 => {
                let call = self.draw.publish_call(&self.station);
                self.draw.no_ranks(&mut self.station);
                self.call(&call, None)?;
                (self.station.ranks, self.last) = (kept.station.ranks, kept.last);
            }
            1 => {
                let label = self.draw.other_store(&mut self.station);
                let call = self.draw.publish_call(&self.station);
                let answer = self.changed_call(label, &kept.station, &call)?;
                self.coverage.tampered(label, answer.code);
                self.put_back(kept);
            }
            _ => {
                let call = self.draw.publish_call(&self.station);
                self.odd_call(call)?;
            }
        }
        self.draw.turn_chance();
        Ok(())
    }

    /// Asks for the script's total, whether it loads or not.
    fn total(&mut self) -> Result<(), Difference> {
        let call = self.draw.total_call();
        if self.call(&call, None)?.code == 0 {
            let card = &self.station.card;
            if let Ok((_, _, script)) = second::check::read(&card.terms, &card.schema, &card.script) {
                self.coverage.total(&script);
            }
        }
        Ok(())
    }

    /// Asks for a written type that would do, whether the script loads or not. One that is named is written into the script's bytes, and
    /// that is loaded; the case goes on as if it had not been.
    fn suggest(&mut self) -> Result<(), Difference> {
        let call = self.draw.suggest_call();
        let answer = self.call(&call, None)?;
        let open = open_pairs(&self.station.card.script);
        self.coverage.suggested(&call, &answer, &open);
        let Some(Suggestion::Written { variable, written_type }) = answer.suggested() else { return Ok(()) };
        let Some((_, place)) = open.into_iter().find(|(v, _)| *v == variable) else { return Ok(()) };
        let kept = self.kept_back();
        self.station.card.script[place] = written_type.code();
        let loaded = self.changed_call("suggestion written", &kept.station, &Call::Load)?;
        self.coverage.add("suggestion written", format!("{:02}", loaded.code));
        self.put_back(kept);
        Ok(())
    }

    fn has_ended(&self) -> bool {
        let report = self.last.as_ref().and_then(Answer::ran);
        report.is_some_and(|report| report.state == State::Ended)
    }

    /// Compares what the type printers write, where both engines have one.
    fn print(&mut self) -> Result<(), Difference> {
        let input = self.joined();
        let [a, b] = self.engines.map(|engine| engine.print(&input));
        if let Some(text) = &a {
            self.coverage.printed(text);
        }
        match (a, b) {
            (Some(a), Some(b)) if a != b => {
                Err(Difference::new(Breach::Printer, format!("type printer: {a:?} and {b:?}")))
            }
            _ => Ok(()),
        }
    }

    /// Makes one call by both engines, counts and judges it.
    fn call(&mut self, call: &Call, tampering: Option<&Tampering>) -> Result<Answer, Difference> {
        let label = tampering.map_or("", |tampering| tampering.label);
        if let Watch::Keep(replay) = &mut self.watch {
            let ranks = self.station.ranks.clone();
            replay.moves.push(Move { tampering: tampering.cloned(), ranks, call: call.clone() });
        }
        let made = Made::new(&self.station, call, self.engines);
        for (slowest, time) in self.slowest.iter_mut().zip(made.times) {
            *slowest = (*slowest).max(time);
        }
        if let Watch::Print = self.watch {
            print!("{}", describe(&made, label, self.engines));
        }
        let (why, notes) = (self.engines[0].why(), self.engines[0].notes());
        let exact = self.history.once.is_some() && !self.history.tampered && tampering.is_none();
        let looks = self.engines[0].looks();
        self.coverage.call(&Met { call, answer: &made.answers[0], why, exact, notes, looks });
        self.coverage.ranks(&made, &self.ranks);
        if let (Some(loaded), None, 0) = (&self.loaded, tampering, made.answers[0].code) {
            self.coverage.lent_texts(&made, loaded);
        }
        let judged = judge(&made, tampering.is_some(), &mut self.history);
        let turned = || if self.turning { ranks::turned(&made, self.engines) } else { Ok(()) };
        let held = || suggestions::held(&made, self.engines);
        let published = || published::held(&made, self.engines, tampering.is_some(), &self.history);
        let laws = judged.and_then(|()| turned()).and_then(|()| held()).and_then(|()| published());
        let laws = laws.map_err(|difference| {
            let names = self.engines.map(|engine| engine.name());
            let what = format!("{} {label}: {} and {}: {}", call.name(), names[0], names[1], difference.what);
            Difference { what, ..difference }
        })?;
        self.coverage.published(&made, &laws);
        if let Some(how) = self.history.alike {
            self.coverage.add("a store again", how);
        }
        let (station, answer) = made.into_first();
        if answer.code == 21 {
            self.otherwise(call);
        }
        self.station = station;
        self.last = Some(answer.clone());
        if answer.code == 0 && tampering.is_none() {
            self.draw.answered(call);
        }
        // Totals and suggestions are told without the tables, which may be of another length; and a graph that is published leaves them as
        // they were.
        if answer.code == 0 && call.is_ranked() {
            self.evaluate()?;
        }
        Ok(answer)
    }

    /// Asks the evaluators about tuples, where the case is given to them.
    fn evaluate(&mut self) -> Result<(), Difference> {
        let Some(evaluator) = &mut self.evaluator else { return Ok(()) };
        let Some(asked) = self.draw.asked(&self.station) else { return Ok(()) };
        let input = asked.input(&self.station);
        match &mut self.watch {
            Watch::Print => print!("{}", describe_asked(&asked, &self.station)),
            Watch::Keep(replay) => replay.asked = Some(asked),
            Watch::Nothing => {}
        }
        evaluator.compare(self.engines, &input, self.coverage)
    }

    /// Counts what a call that 21 refuses would have met with good ranks.
    fn otherwise(&mut self, call: &Call) {
        let mut station = Station { ranks: self.ranks.clone(), ..self.station.clone() };
        let code = station.call(self.engines[0], call).code;
        self.coverage.add("21 before", format!("{} {code:02}", call.name()));
    }

    /// Makes a call by ranks that are none. It is refused, and the case goes on as if it had not been made.
    fn spoiled_call(&mut self, call: Call) -> Result<(), Difference> {
        let (mut call, ranks, last) = (call, self.station.ranks.clone(), self.last.clone());
        self.draw.spoiled(&mut self.station, &mut call);
        self.call(&call, None)?;
        (self.station.ranks, self.last) = (ranks, last);
        if let Watch::Keep(replay) = &mut self.watch {
            replay.moves.pop();
        }
        Ok(())
    }

    /// Makes a call on a station that was tampered with, and goes on from there now and then.
    fn tampered_call(&mut self) -> Result<(), Difference> {
        let kept = self.kept_back();
        let (label, mut call) = self.draw.tampered_call(&mut self.station, self.last.as_ref());
        if self.draw.rng.one_in(10) {
            self.draw.spoiled(&mut self.station, &mut call);
        }
        let answer = self.changed_call(label, &kept.station, &call)?;
        self.coverage.tampered(label, answer.code);
        if answer.code == 0 && self.draw.rng.one_in(2) {
            self.history.tampered = true;
            self.draw.answered(&call);
        } else {
            self.put_back(kept);
        }
        Ok(())
    }

    /// Makes a call that is lent something odd, and goes on as if it had not been made.
    fn odd_call(&mut self, mut call: Call) -> Result<(), Difference> {
        let kept = self.kept_back();
        if let Some(odd) = self.draw.odd(&mut self.station, &mut call) {
            if call == Call::Load {
                self.print()?;
            }
            let answer = self.changed_call(odd.label(), &kept.station, &call)?;
            self.coverage.odd(odd, &call, answer.code);
            self.put_back(kept);
        } else {
            self.station = kept.station;
        }
        Ok(())
    }

    /// Makes a call on a station that was changed since it was this one.
    fn changed_call(&mut self, label: &'static str, before: &Station, call: &Call) -> Result<Answer, Difference> {
        let tampering = match &self.watch {
            Watch::Keep(_) => Tampering::between(label, before, &self.station),
            _ => Tampering::named(label),
        };
        self.call(call, Some(&tampering))
    }

    /// What a call may change.
    fn kept_back(&self) -> Kept {
        let (station, last) = (self.station.clone(), self.last.clone());
        Kept { station, last, steps: self.history.steps, stores: self.history.stores.len() }
    }

    /// Goes on as if the last call had not been made.
    fn put_back(&mut self, kept: Kept) {
        (self.station, self.last, self.history.steps) = (kept.station, kept.last, kept.steps);
        self.history.stores.truncate(kept.stores);
        if let Watch::Keep(replay) = &mut self.watch {
            replay.moves.pop();
        }
    }

    /// Counts and learns what an accepted script is.
    fn loaded(&mut self) {
        if let Ok(saved) = self.station.saved[..].try_into() {
            self.coverage.types(&SavedRun::from_bytes(saved));
        }
        let card = &self.station.card;
        let Ok(loaded) = second::check::check(second::arcs::solve, &card.terms, &card.schema, &card.script) else {
            return;
        };
        self.draw.loaded(&loaded);
        self.history.once = Once::of(&loaded.script);
        self.coverage.kinds(&loaded.script);
        self.coverage.card_texts(card);
        self.loaded = Some(loaded);
    }
}
