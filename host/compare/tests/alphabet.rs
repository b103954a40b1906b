//! The ranks that calls are lent: engines that take them otherwise are found, and where two of them are wrong alike, by what each owes by
//! itself, as far as that goes.

use compare::call::engine::{fast, Second, Ways};
use compare::call::{Call, Engine, Station};
use compare::count::sort_of;
use compare::draw::ranks::{good, spoil, spoil_in_place, turn};
use compare::draw::rng::Rng;
use compare::judge::ranks::{due, each_once};
use compare::judge::Breach;
use compare::replay::Replay;
use compare::shrink::{shrink, Patience};
use second::rank::{self, Alphabet, Ranks, Str};
use second::seek::Seek;
use second::write::success;
use std::cell::RefCell;
use willetcoffer::limits::{RANKS_WIDTH, RUN_REPORT_WIDTH};
use willetcoffer::ranks::BUILT_IN;
use willetcoffer::Card;
use wrong::{differing, How, Instead, Turn, FAST};

mod wrong;

const SEED: u64 = 9;
const CASES: u64 = 2000;

type Less = fn(&Ranks, &Str, &Str) -> bool;
type Stands = fn(&Ranks) -> bool;

/// The first breach.
fn breach(engines: [&dyn Engine; 2]) -> Option<Breach> {
    wrong::breach(SEED, CASES, engines)
}

fn ranking(alphabet: Alphabet) -> Second<Seek> {
    fast().by(Ways { alphabet, ..Ways::FAST })
}

/// Found against the right one.
fn found(alphabet: Alphabet) -> Option<Breach> {
    breach([&fast(), &ranking(alphabet)])
}

/// Found where both take ranks so.
fn found_alike(alphabet: Alphabet) -> Option<Breach> {
    breach([&ranking(alphabet), &ranking(alphabet)])
}

#[test]
fn the_right_ways_pass() {
    for alphabet in [rank::FAST, rank::PLAIN] {
        assert_eq!((found(alphabet), found_alike(alphabet)), (None, None));
    }
}

fn less(ranks: &Ranks, a: &Str, b: &Str) -> bool {
    (rank::PLAIN.less)(ranks, a, b)
}

fn only_text((_, text): &Str) -> Str {
    ([0; 8], *text)
}

/// Strings in another order than the lent ranks'.
#[test]
fn another_order_is_found() {
    /// Ranks read as the bytes in their order.
    fn inverse(ranks: &Ranks) -> Ranks {
        let mut inverse = [0; RANKS_WIDTH];
        for (place, rank) in (0..).zip(ranks) {
            inverse[usize::from(*rank)] = place;
        }
        inverse
    }
    /// One place further on.
    fn shifted(ranks: &Ranks) -> Ranks {
        let mut shifted = *ranks;
        shifted.rotate_left(1);
        shifted
    }
    let orders: [(&str, Less); 10] = [
        ("by bytes whatever the ranks", |_, (tag_a, a), (tag_b, b)| (a, tag_a) < (b, tag_b)),
        ("by the built-in ranks whatever is lent", |_, a, b| less(&BUILT_IN, a, b)),
        ("tags by bytes", |ranks, a, b| less(ranks, &only_text(a), &only_text(b)) || a.1 == b.1 && a.0 < b.0),
        ("tags by the built-in ranks", |ranks, a, b| {
            less(ranks, &only_text(a), &only_text(b)) || a.1 == b.1 && less(&BUILT_IN, a, b)
        }),
        ("tags not at all", |ranks, a, b| less(ranks, &only_text(a), &only_text(b))),
        ("tags before texts", |ranks, a, b| {
            let tag = |(tag, _): &Str| ([0; 8], second::term::fill(tag));
            less(ranks, &tag(a), &tag(b)) || a.0 == b.0 && less(ranks, a, b)
        }),
        ("ranks turned round", |ranks, a, b| less(&ranks.map(|rank| 94 - rank), a, b)),
        ("ranks inverted", |ranks, a, b| less(&inverse(ranks), a, b)),
        ("the rank of the next byte", |ranks, a, b| less(&shifted(ranks), a, b)),
        ("not greater", |ranks, a, b| !less(ranks, b, a)),
    ];
    for (name, less) in orders {
        let alphabet = Alphabet { less, ..rank::FAST };
        assert!(matches!(found(alphabet), Some(Breach::Answers | Breach::Tables)), "{name}");
    }
}

/// Lists that are none are taken.
#[test]
fn bad_lists_that_are_taken_are_found() {
    let lists: [(&str, Stands); 6] = [
        ("a rank twice", |ranks| ranks.iter().all(|rank| *rank < 95)),
        ("a rank of 95", |ranks| {
            let mut sorted = *ranks;
            sorted.sort_unstable();
            sorted.windows(2).all(|pair| pair[0] < pair[1]) && sorted[94] <= 95
        }),
        ("each once, whatever they are", |ranks| (0..95).all(|place| !ranks[..place].contains(&ranks[place]))),
        ("the lower seven bits", |ranks| each_once(&ranks.map(|rank| rank & 127))),
        ("all but the first place", |ranks| (1..95).all(|place| !ranks[1..place].contains(&ranks[place]))),
        ("every list", |_| true),
    ];
    for (name, stands) in lists {
        let alphabet = Alphabet { stands, ..rank::FAST };
        assert_eq!((found(alphabet), found_alike(alphabet)), (Some(Breach::Answers), Some(Breach::Lent)), "{name}");
    }
}

/// Good lists are refused.
#[test]
fn good_lists_that_are_refused_are_found() {
    for stands in [|ranks: &Ranks| *ranks == BUILT_IN, |ranks: &Ranks| ranks[0] != 94 && each_once(ranks)] {
        let alphabet = Alphabet { stands, ..rank::FAST };
        // Lent good ranks at first, or at first where the call is made again by ranks turned round.
        assert!(matches!(found(alphabet), Some(Breach::Answers | Breach::Turned)));
        assert!(matches!(found_alike(alphabet), Some(Breach::Lent | Breach::Turned)));
    }
}

/// What a call gives by ranks that are good and of the right length.
fn with_good_ranks(station: &mut Station, call: &Call, report: &mut [u8]) -> u32 {
    let ranks = std::mem::replace(&mut station.ranks, BUILT_IN.to_vec());
    let code = fast().call(station, call, report);
    station.ranks = ranks;
    code
}

/// Whether the call is lent 95 ranks that are none.
fn is_spoiled(station: &Station, call: &Call) -> bool {
    call.is_lent() && station.ranks.len() == RANKS_WIDTH && !each_once(&station.ranks)
}

/// 21 stands straight after 1.
#[test]
fn another_place_is_found() {
    let places: [(&str, How); 6] = [
        ("21 before 1", |station, call, report| match is_spoiled(station, call) {
            true => 21,
            false => fast().call(station, call, report),
        }),
        ("21 last", |station, call, report| {
            let (before, mut copy) = (station.clone(), report.to_vec());
            let code = if is_spoiled(station, call) { with_good_ranks(station, call, &mut copy) } else { 0 };
            *station = before;
            if code > 1 {
                code
            } else {
                fast().call(station, call, report)
            }
        }),
        ("21 after 2", |station, call, report| {
            let bad_term = second::terms::read_listed(&station.card.terms).is_err();
            let code = fast().call(station, call, report);
            if (call, code, bad_term) == (&Call::Load, 21, true) {
                2
            } else {
                code
            }
        }),
        ("21 after 10", |station, call, report| {
            let before = station.clone();
            let code = fast().call(station, call, report);
            if code != 21 || *call == Call::Load {
                return code;
            }
            let sound = with_good_ranks(station, call, &mut report.to_vec());
            *station = before;
            if sound == 10 {
                10
            } else {
                21
            }
        }),
        ("another length is 21", |station, call, report| match call.is_lent() && station.ranks.len() != RANKS_WIDTH {
            true => 21,
            false => fast().call(station, call, report),
        }),
        ("a longer list is taken", |station, call, report| {
            let ranks = station.ranks.clone();
            station.ranks.truncate(RANKS_WIDTH);
            let code = fast().call(station, call, report);
            station.ranks = ranks;
            code
        }),
    ];
    for (name, call) in places {
        let other = Instead { call: &call, ..FAST };
        let found = breach([&fast(), &other]);
        assert_eq!((found, breach([&other, &other])), (Some(Breach::Answers), Some(Breach::Lent)), "{name}");
    }
}

/// Calls that do not look at what they are lent.
#[test]
fn calls_that_do_not_look_are_found() {
    let careless: [How; 3] = [
        |station, call, report| match call {
            Call::Load if is_spoiled(station, call) => with_good_ranks(station, call, report),
            _ => fast().call(station, call, report),
        },
        |station, call, report| match call {
            Call::Run { .. } if is_spoiled(station, call) => with_good_ranks(station, call, report),
            _ => fast().call(station, call, report),
        },
        |station, call, report| match call {
            Call::Page { .. } if is_spoiled(station, call) => with_good_ranks(station, call, report),
            _ => fast().call(station, call, report),
        },
    ];
    for (place, call) in careless.into_iter().enumerate() {
        let other = Instead { call: &call, ..FAST };
        let found = breach([&fast(), &other]);
        assert_eq!((found, breach([&other, &other])), (Some(Breach::Answers), Some(Breach::Lent)), "{place}");
    }
}

/// An engine that goes by the ranks of the last load, whatever runs are lent; or refuses others with 10.
struct Remembers {
    ranks: RefCell<Vec<u8>>,
    refuses: bool,
}

impl Remembers {
    fn new(refuses: bool) -> Remembers {
        Remembers { ranks: RefCell::new(BUILT_IN.to_vec()), refuses }
    }

    fn call(&self, station: &mut Station, call: &Call, report: &mut [u8]) -> u32 {
        let ranks = station.ranks.clone();
        if matches!(call, Call::Run { .. }) && due(station, call).is_none() {
            if self.refuses && ranks != *self.ranks.borrow() {
                return 10;
            }
            station.ranks.clone_from(&self.ranks.borrow());
        }
        let code = fast().call(station, call, report);
        if (call, code) == (&Call::Load, 0) {
            self.ranks.replace(ranks.clone());
        }
        station.ranks = ranks;
        code
    }
}

#[test]
fn an_engine_that_remembers_is_found() {
    let [goes_by, refuses] = [false, true].map(Remembers::new);
    let goes_by = Instead { call: &|station, call, report| goes_by.call(station, call, report), ..FAST };
    assert!(matches!(breach([&fast(), &goes_by]), Some(Breach::Answers | Breach::Tables)));
    let refuses = Instead { call: &|station, call, report| refuses.call(station, call, report), ..FAST };
    assert_eq!(breach([&fast(), &refuses]), Some(Breach::Answers));
    assert_eq!(breach([&refuses, &refuses]), Some(Breach::Unsound));
}

/// Something else than less on strings goes by the ranks, in both engines alike.
#[test]
fn what_else_goes_by_ranks_is_found() {
    let turns: [Turn; 3] = [
        // A load keeps a rank where nothing is asked.
        |station, call, code, _| {
            if (call, *code) == (&Call::Load, 0) {
                station.saved[485] = station.ranks[33];
            }
        },
        // A page skips one record more.
        |station, call, code, report| {
            if let (Call::Page { .. }, 0) = (call, *code) {
                report[0] += u8::from(station.ranks[0] > 40);
            }
        },
        // A budget is refused.
        |station, call, code, _| {
            if let (Call::Run { budget: 5.., .. }, 0) = (call, *code) {
                *code = if station.ranks[94] < 20 { 11 } else { 0 };
            }
        },
    ];
    for (place, turn) in turns.into_iter().enumerate() {
        let turned = Instead { turn, ..FAST };
        assert!(breach([&fast(), &turned]).is_some(), "{place}");
        // A record skipped too many is found by the law about what is taken in, too.
        let alike = breach([&turned, &turned]);
        assert!(matches!(alike, Some(Breach::Turned | Breach::Whole)), "{place}: {alike:?}");
    }
    // A run that gives up where ranks are turned round, though nothing asks for an order.
    let lazy: How = |station, call, report| {
        let before = station.clone();
        let code = fast().call(station, call, report);
        if let (Call::Run { .. }, 0, true) = (call, code, station.ranks[0] < station.ranks[1]) {
            *station = before;
            report.copy_from_slice(&[0, 0, 0, 0, 2, 0, 0, 0]);
        }
        code
    };
    let lazy = Instead { call: &lazy, ..FAST };
    assert!(breach([&fast(), &lazy]).is_some());
    assert!(matches!(breach([&lazy, &lazy]), Some(Breach::Turned | Breach::Total)));
}

/// A call that 21 refuses keeps what it was lent.
#[test]
fn a_table_that_21_changes_is_found() {
    let clears: Turn = |station, _, code, _| {
        if *code == 21 {
            station.saved.fill(0);
        }
    };
    let clears = Instead { turn: clears, ..FAST };
    assert_eq!(breach([&fast(), &clears]), Some(Breach::Tables));
    assert_eq!(breach([&clears, &clears]), Some(Breach::Kept));
}

/// Of the first cases that show a difference to the right engine, cut down, the one with the fewest ranks that are not as built in.
fn cut_down(alphabet: Alphabet) -> Replay {
    let (first, other) = (fast(), ranking(alphabet));
    let engines: [&dyn Engine; 2] = [&first, &other];
    let small = differing(SEED, CASES, engines).map(|(kept, _)| {
        let (_, shown) = kept.play(engines).expect("made again, it shows");
        let same = |replay: &Replay| replay.play(engines).is_some_and(|(_, d)| d.breach == shown.breach);
        shrink(kept, Patience::default(), &mut |replay| same(replay))
    });
    small.take(FIRST).min_by_key(other_places).expect("a case shows it")
}

/// How many cases are cut down.
const FIRST: usize = 4;

/// How many places of the ranks are not as built in, in the last move.
fn other_places(replay: &Replay) -> usize {
    let last = replay.moves.last().expect("a move is left");
    last.ranks.iter().zip(BUILT_IN).filter(|(rank, built_in)| **rank != *built_in).count()
}

/// Ranks are cut down to the built-in ones, to two of them exchanged, or to one place that is wrong.
#[test]
fn ranks_are_cut_down() {
    let by_bytes = cut_down(Alphabet { less: |_, a, b| (a.1, a.0) < (b.1, b.0), ..rank::FAST });
    assert!(by_bytes.moves.len() <= 3 && other_places(&by_bytes) <= 2, "{}", other_places(&by_bytes));
    let built_in = cut_down(Alphabet { less: |_, a, b| less(&BUILT_IN, a, b), ..rank::FAST });
    assert!(built_in.moves.len() <= 3 && other_places(&built_in) == 2, "{}", other_places(&built_in));
    let twice = cut_down(Alphabet { stands: |ranks| ranks.iter().all(|rank| *rank < 95), ..rank::FAST });
    assert_eq!(other_places(&twice), 1);
    let told = built_in.tell([&fast(), &fast()]);
    assert!(told.contains("  ranks others:  "), "{told}");
}

/// What is drawn is what it is said to be.
#[test]
fn drawn_ranks() {
    let mut rng = Rng::new(SEED, 0);
    for _ in 0..2000 {
        let mut ranks = good(&mut rng);
        assert!(each_once(&ranks) && ranks.len() == RANKS_WIDTH);
        let before = ranks.clone();
        turn(&mut ranks);
        assert!(each_once(&ranks) && ranks != before);
        turn(&mut ranks);
        assert_eq!(ranks, before);
        spoil(&mut rng, &mut ranks);
        assert!(!each_once(&ranks));
        ranks.clone_from(&before);
        spoil_in_place(&mut rng, &mut ranks);
        assert!(!each_once(&ranks) && ranks.len() == RANKS_WIDTH);
    }
}

#[test]
fn sorts_of_ranks() {
    let with = |place: usize, rank: u8| {
        let mut ranks = BUILT_IN.to_vec();
        ranks[place] = rank;
        ranks
    };
    let mut turned = BUILT_IN.to_vec();
    turn(&mut turned);
    let by_byte: Vec<u8> = (0..95).collect();
    let mut exchanged = BUILT_IN.to_vec();
    exchanged.swap(3, 4);
    let rows = [
        (BUILT_IN.to_vec(), "built in"),
        (turned, "built in, turned round"),
        (by_byte, "by byte"),
        (exchanged, "others"),
        (BUILT_IN[..94].to_vec(), "of 94 bytes"),
        ([&BUILT_IN[..], &[95]].concat(), "of 96 bytes"),
        (BUILT_IN[..93].to_vec(), "of another length"),
        (Vec::new(), "of another length"),
        (with(0, 1), "with a rank twice, one missing"),
        (vec![0; 95], "with a rank twice, one missing"),
        (with(94, 95), "with a rank of 95"),
        (with(7, 200), "with a rank over 95"),
    ];
    for (ranks, sort) in rows {
        assert_eq!(sort_of(&ranks), sort);
    }
}

/// 1 and 21 where they are due, as the judge has it.
#[test]
fn what_is_due() {
    let good = Station::new(Card { script: success().to_vec(), ..Card::default() }, 0);
    let calls = [Call::Load, Call::run(0, 0), Call::page(0, vec![])];
    let mut twice = good.clone();
    twice.ranks[0] = 1;
    let mut short = good.clone();
    short.ranks.pop();
    let mut both = twice.clone();
    both.saved.pop();
    for call in &calls {
        assert_eq!(
            [&good, &twice, &short, &both].map(|station| due(station, call)),
            [None, Some(21), Some(1), Some(1)]
        );
    }
    let long = Call::Run { budget: 0, now: 0, report: RUN_REPORT_WIDTH + 1 };
    assert_eq!([&good, &twice].map(|station| due(station, &long)), [Some(1); 2]);
    // A total is lent no ranks.
    for (call, short_report) in
        [(Call::total(), Call::Total { report: 0 }), (Call::suggest(), Call::Suggest { report: 3 })]
    {
        assert_eq!([&twice, &short, &both].map(|station| due(station, &call)), [None; 3]);
        assert_eq!(due(&good, &short_report), Some(1));
    }
}
