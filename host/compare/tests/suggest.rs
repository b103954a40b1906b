//! Engines that name another written type, or none, or say something else: each is found, also where both engines are wrong alike.

use compare::call::engine::{fast, with, Second, Ways};
use compare::call::{Call, Engine, Station};
use compare::draw::Draw;
use compare::judge::Breach;
use compare::records::open_pairs;
use second::arcs;
use second::check::{check, read, Typer};
use second::refusal::{refuse, Refusal};
use second::script::Script;
use second::seek::Seek;
use second::suggest::{self, open_places, Suggest, Suggestion};
use second::types::{Datatype, Type};
use willetcoffer::limits::{SUGGEST_REPORT_WIDTH, TERM_TABLE_WIDTH};
use wrong::{How, Instead, Turn, FAST};

mod wrong;

const CASES: u64 = 1500;

/// The first breach of two engines.
fn breach(engines: [&dyn Engine; 2]) -> Option<Breach> {
    wrong::breach(23, CASES, engines)
}

/// Whether it is found beside an engine that is right, as other answers, and beside itself, as this breach.
fn found(engine: &dyn Engine, alone: Breach) -> bool {
    breach([&fast(), engine]) == Some(Breach::Answers) && breach([engine, engine]) == Some(alone)
}

fn suggesting(suggest: Suggest) -> Second<Seek> {
    with("wrong", [arcs::solve; 2], Seek).by(Ways { suggest, ..Ways::FAST })
}

/// A variable, the place of its written type, and a type to write there.
type Try = (u8, usize, Type);

/// All that a right engine tries, in order.
fn tries(script: &Script) -> Vec<Try> {
    let places = open_places(script);
    places.into_iter().flat_map(|(variable, at)| Type::all().map(move |t| (variable, at, t))).collect()
}

/// What is said where the first of these with which the script loads is named.
fn first(typer: Typer, card: [&[u8]; 3], tries: impl FnOnce(&Script) -> Vec<Try>) -> Result<Suggestion, Refusal> {
    first_with(typer, card, tries, |outcome| outcome.is_ok())
}

/// The same for the first whose load ends in one of these ways.
fn first_with(
    typer: Typer,
    [terms, schema, script]: [&[u8]; 3],
    tries: impl FnOnce(&Script) -> Vec<Try>,
    helps: fn(Result<(), u32>) -> bool,
) -> Result<Suggestion, Refusal> {
    let load = |script: &[u8]| check(typer, terms, schema, script).map(|_| ());
    match load(script) {
        Ok(()) => return Ok(Suggestion::Accepted),
        Err(refusal) if refusal.number != 9 => return Err(refusal),
        Err(_) => {}
    }
    let (_, _, tree) = read(terms, schema, script)?;
    let named = tries(&tree).into_iter().find(|(_, at, t)| {
        let mut script = script.to_vec();
        script[*at] = t.code();
        helps(load(&script).map_err(|refusal| refusal.number))
    });
    Ok(named.map_or(Suggestion::None, |(variable, _, t)| Suggestion::Written(variable, t)))
}

#[test]
fn engines_that_are_right() {
    assert_eq!(breach([&fast(), &suggesting(suggest::plain)]), None);
    assert_eq!(breach([&fast(), &suggesting(|typer, card| first(typer, card, tries))]), None);
}

/// What is said where all is tried in another order.
fn sorted<K: Ord>(typer: Typer, card: [&[u8]; 3], key: fn(&Try) -> K) -> Result<Suggestion, Refusal> {
    first(typer, card, |script| {
        let mut all = tries(script);
        all.sort_by_key(key);
        all
    })
}

#[test]
fn another_order() {
    let wrong: [Suggest; 6] = [
        // Codes from the top.
        |typer, card| sorted(typer, card, |(variable, _, t)| (*variable, !t.code())),
        // The highest variable.
        |typer, card| sorted(typer, card, |(variable, _, t)| (!*variable, t.code())),
        // The lowest code before the lowest variable.
        |typer, card| sorted(typer, card, |(variable, _, t)| (t.code(), *variable)),
        // In the order of the pairs.
        |typer, card| sorted(typer, card, |(_, at, t)| (*at, t.code())),
        // Decimal after integer.
        |typer, card| {
            const LAST: [Type; 2] = [Type::Data(Datatype::Decimal), Type::Range(Datatype::Decimal)];
            sorted(typer, card, |(variable, _, t)| (*variable, LAST.contains(t), t.code()))
        },
        // Ranges before datatypes.
        |typer, card| sorted(typer, card, |(variable, _, t)| (*variable, matches!(t, Type::Data(_)), t.code())),
    ];
    for (place, suggest) in wrong.into_iter().enumerate() {
        assert!(found(&suggesting(suggest), Breach::Suggested), "{place}");
    }
}

#[test]
fn fewer_tries() {
    fn only(typer: Typer, card: [&[u8]; 3], tried: fn(&[Try], &Try) -> bool) -> Result<Suggestion, Refusal> {
        first(typer, card, |script| {
            let all = tries(script);
            all.iter().filter(|one| tried(&all, one)).copied().collect()
        })
    }
    let wrong: [Suggest; 6] = [
        // Plain types alone.
        |typer, card| only(typer, card, |_, (_, _, t)| matches!(t, Type::Data(_))),
        // Ranges alone.
        |typer, card| only(typer, card, |_, (_, _, t)| matches!(t, Type::Range(_))),
        // The last code is left out.
        |typer, card| only(typer, card, |_, (_, _, t)| t.code() < 13),
        // It stops at the first open variable.
        |typer, card| only(typer, card, |all, (variable, _, _)| *variable == all[0].0),
        // The last variable is left out.
        |typer, card| only(typer, card, |_, (variable, _, _)| *variable < 15),
        // None is named.
        |typer, card| only(typer, card, |_, _| false),
    ];
    for (place, suggest) in wrong.into_iter().enumerate() {
        assert!(found(&suggesting(suggest), Breach::Suggested), "{place}");
    }
}

/// A variable that has its written type, or that no pair binds; a type that would not do.
#[test]
fn other_tries() {
    let wrong: [Suggest; 4] = [
        // The lowest variable that has its written type is named for the open one.
        |typer, card| {
            first(typer, card, |script| {
                let mut fixed = (0u8..).zip(script.written()).filter(|(_, written)| matches!(written, Some(Some(_))));
                let named = fixed.next().map(|(variable, _)| variable);
                tries(script).into_iter().map(|(v, at, t)| (named.unwrap_or(v), at, t)).collect()
            })
        },
        // The lowest variable that no pair binds is.
        |typer, card| {
            first(typer, card, |script| {
                let mut unbound = (0u8..).zip(script.written()).filter(|(_, written)| written.is_none());
                let named = unbound.next().map(|(variable, _)| variable);
                tries(script).into_iter().map(|(v, at, t)| (named.unwrap_or(v), at, t)).collect()
            })
        },
        // 9 again is taken for a help.
        |typer, card| first_with(typer, card, tries, |outcome| outcome != Err(8)),
        // What does not help is named in the place of none.
        |typer, card| {
            let first_open = |script: &Script| tries(script).first().map(|(variable, _, t)| (*variable, *t));
            let [terms, schema, script] = card;
            let open = read(terms, schema, script).ok().and_then(|(_, _, script)| first_open(&script));
            Ok(match (suggest::fast(typer, card)?, open) {
                (Suggestion::None, Some((variable, t))) => Suggestion::Written(variable, t),
                (said, _) => said,
            })
        },
    ];
    for (place, suggest) in wrong.into_iter().enumerate() {
        assert!(found(&suggesting(suggest), Breach::Suggested), "{place}");
    }
}

/// 9, or 8 for it; accepted or none for something else; an answer where a refusal is due.
#[test]
fn other_answers() {
    let wrong: [Suggest; 7] = [
        |typer, card| match suggest::fast(typer, card)? {
            Suggestion::Accepted => Ok(Suggestion::Accepted),
            _ => refuse(9, "told in the place of the answer"),
        },
        |typer, card| match suggest::fast(typer, card)? {
            Suggestion::None => refuse(9, "told in the place of none"),
            said => Ok(said),
        },
        |typer, card| match suggest::fast(typer, card)? {
            Suggestion::Accepted => Ok(Suggestion::Accepted),
            _ => refuse(8, "told for 9"),
        },
        |typer, card| suggest::fast(typer, card).map(|_| Suggestion::Accepted),
        |typer, card| match suggest::fast(typer, card)? {
            Suggestion::Accepted => Ok(Suggestion::None),
            said => Ok(said),
        },
        |typer, card| suggest::fast(typer, card).or_else(|r| if r.number == 8 { Ok(Suggestion::None) } else { Err(r) }),
        |typer, card| suggest::fast(typer, card).or_else(|r| refuse(if r.number == 7 { 6 } else { r.number }, r.why)),
    ];
    for (place, suggest) in wrong.into_iter().enumerate() {
        assert!(found(&suggesting(suggest), Breach::Suggested), "{place}");
    }
}

/// Another report; one that is touched on a refusal; tables that are asked though none are lent.
#[test]
fn other_reports() {
    fn suggests(call: &Call, code: u32) -> bool {
        matches!(call, Call::Suggest { .. }) && code == 0
    }
    let wrong: [(Turn, Breach); 6] = [
        (
            |_, call, code, report| {
                if suggests(call, *code) && report[0] == 2 {
                    report[1] = 1
                }
            },
            Breach::Suggested,
        ),
        (
            |_, call, code, report| {
                if suggests(call, *code) && report[0] == 0 {
                    report[2] = 1
                }
            },
            Breach::Suggested,
        ),
        (
            |_, call, code, report| {
                if suggests(call, *code) {
                    report[3] = 1
                }
            },
            Breach::Suggested,
        ),
        (
            |_, call, code, report| {
                if suggests(call, *code) {
                    report[2] &= 7
                }
            },
            Breach::Suggested,
        ),
        (
            |_, call, code, report| {
                if matches!(call, Call::Suggest { .. }) && *code > 1 {
                    report.fill(0);
                }
            },
            Breach::Kept,
        ),
        (
            |station, call, code, report| {
                if matches!(call, Call::Suggest { .. }) && station.term_table.len() != TERM_TABLE_WIDTH {
                    report.fill(0xaa);
                    *code = 1;
                }
            },
            Breach::Lent,
        ),
    ];
    for (place, (turn, alone)) in wrong.into_iter().enumerate() {
        assert!(found(&Instead { turn, ..FAST }, alone), "{place}");
    }
}

/// A report of another length is taken, or meets 1 only after what else is wrong; and one that 1 refuses is touched.
#[test]
fn other_lengths() {
    fn taken(station: &mut Station, call: &Call, report: &mut [u8], least: usize) -> u32 {
        match call {
            Call::Suggest { .. } if report.len() >= least => {
                let mut right = [0xaa; SUGGEST_REPORT_WIDTH];
                let code = fast().call(station, &Call::suggest(), &mut right);
                report.iter_mut().zip(right).for_each(|(byte, right)| *byte = right);
                code
            }
            _ => fast().call(station, call, report),
        }
    }
    for least in [4, 0] {
        let taken = Instead { call: &|station, call, report| taken(station, call, report, least), ..FAST };
        assert!(found(&taken, Breach::Lent), "{least}");
    }
    let late: How = |station, call, report| match (fast().call(station, call, report), call) {
        (1, Call::Suggest { .. }) => match fast().call(station, &Call::suggest(), &mut [0; SUGGEST_REPORT_WIDTH]) {
            0 => 1,
            code => code,
        },
        (code, _) => code,
    };
    assert!(found(&Instead { call: &late, ..FAST }, Breach::Lent));
    let touched: Turn = |_, call, code, report| {
        if let (Call::Suggest { .. }, 1) = (call, *code) {
            report.fill(0);
        }
    };
    assert!(found(&Instead { turn: touched, ..FAST }, Breach::Kept));
}

/// The places of open variables by the records' widths are those by the tree.
#[test]
fn places_of_open_variables() {
    let mut open = 0;
    for index in 0..500 {
        let (_, station, _) = Draw::new(29, index);
        let card = &station.card;
        if let Ok((_, _, script)) = read(&card.terms, &card.schema, &card.script) {
            let places = open_pairs(&card.script);
            assert_eq!(places, open_places(&script), "case 29:{index}");
            open += places.len();
        }
    }
    assert!(open > 500, "{open} open variables");
}
