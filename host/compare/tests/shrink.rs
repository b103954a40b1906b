//! The shrinker, on differences made for it: each is cut down to little more than what shows it, and still shows it.

use compare::call::engine::fast;
use compare::call::{Call, Engine};
use compare::case::Case;
use compare::count::Coverage;
use compare::judge::{Breach, Difference};
use compare::replay::Replay;
use compare::run::Plan;
use compare::shrink::tree::Node;
use compare::shrink::{shrink, Patience};
use std::time::Duration;
use willetcoffer::limits::SLOT_WIDTH;
use willetcoffer::page::records;
use wrong::{compare, differing, Instead, Turn, FAST};

mod wrong;

/// The first case that shows a difference, as it is and cut down, with the breach.
fn cut_down(turn: Turn) -> (Replay, Replay, Breach) {
    let (first, wrong) = (fast(), Instead { turn, ..FAST });
    let engines: [&dyn Engine; 2] = [&first, &wrong];
    let (kept, _) = differing(5, 2000, engines).next().expect("a case shows it");
    let (_, difference) = kept.play(engines).expect("made again, it shows");
    let same = |replay: &Replay| replay.play(engines).is_some_and(|(_, d)| d.breach == difference.breach);
    let patience = Patience { tries: 20_000, time: Duration::from_secs(60) };
    let small = shrink(kept.clone(), patience, &mut |replay| same(replay));
    assert!(same(&small), "cut down, it still shows");
    assert!(small.bytes() <= kept.bytes() && small.moves.len() <= kept.moves.len());
    (kept, small, difference.breach)
}

/// How often a kind stands in a script that can be read.
fn kinds(script: &[u8], kind: u8) -> usize {
    fn count(node: &Node, kind: u8) -> usize {
        usize::from(node.kind == kind) + node.children.iter().map(|child| count(child, kind)).sum::<usize>()
    }
    Node::read(script).map_or(0, |root| count(&root, kind))
}

/// A load of a script with a comparison by equality is refused, though it is accepted: a block with one such filter is left.
#[test]
fn a_script_is_cut_down() {
    let turn: Turn = |station, call, code, _| {
        if *call == Call::Load && kinds(&station.card.script, 0x57) > 0 && *code == 0 {
            *code = 8;
        }
    };
    let (before, small, breach) = cut_down(turn);
    assert_eq!(breach, Breach::Answers);
    let card = &small.station.card;
    assert!(before.station.card.script.len() > card.script.len());
    assert_eq!((kinds(&card.script, 0x57), kinds(&card.script, 0x73), kinds(&card.script, 0x74)), (1, 1, 0));
    // The block's head, a filter, an equality with two names at most, and success.
    assert!(card.script.len() <= 11 + 1 + 1 + 2 * 3 + 1, "{:02x?}", card.script);
    assert!(card.terms.len() + card.schema.len() <= SLOT_WIDTH, "one record at most is left");
    assert_eq!(small.moves.len(), 1);
}

/// A page with a record whose object is a decimal counts one skipped record more: a page of that record is left.
#[test]
fn a_page_is_cut_down() {
    let turn: Turn = |_, call, code, report| {
        if let (Call::Page { page, .. }, 0) = (call, *code) {
            if records(page).any(|record| record[0] == 0x84) {
                report[0] += 1;
            }
        }
    };
    let (_, small, breach) = cut_down(turn);
    assert_eq!(breach, Breach::Answers);
    let [load, page] = &small.moves[..] else { panic!("a load and a page are left") };
    assert_eq!(load.call, Call::Load);
    let Call::Page { page, .. } = &page.call else { panic!("the page is left") };
    let kinds: Vec<u8> = records(page).map(|record| record[0]).collect();
    assert_eq!(kinds, [0x84]);
    assert_eq!(small.station.card.script, [0x71]);
    assert!(small.station.card.terms.len() + small.station.card.schema.len() <= SLOT_WIDTH, "the graph is left");
}

/// A run of three steps or more is said to have taken one more: a budget of three is left, and three records to step over.
#[test]
fn a_run_is_cut_down() {
    let turn: Turn = |_, call, code, report| {
        if let (Call::Run { .. }, 0) = (call, *code) {
            report[0] += u8::from(report[0] >= 3);
        }
    };
    let (_, small, breach) = cut_down(turn);
    assert_eq!(breach, Breach::Answers);
    let runs = small.moves.iter().filter(|m| matches!(m.call, Call::Run { .. })).count();
    assert_eq!(runs, 1);
    let last = small.moves.last().map(|m| m.call.clone());
    assert!(matches!(last, Some(Call::Run { budget: 3, now: 0, .. })), "{last:?}");
    assert!(small.station.card.script.len() <= 40, "{:02x?}", small.station.card.script);
}

/// Refusal 10 is forgotten where a quad was tampered with: the tampering stays, with no byte too many.
#[test]
fn tampering_is_cut_down() {
    let turn: Turn = |station, call, code, report| {
        if let (Call::Run { .. }, 10) = (call, *code) {
            // A quad that names a term past the table.
            if station.quad_table.chunks(2).any(|number| u16::from_le_bytes([number[0], number[1]]) >= 512) {
                *code = 0;
                report.fill(0);
            }
        }
    };
    let (_, small, _) = cut_down(turn);
    let tampered: Vec<_> = small.moves.iter().filter_map(|m| m.tampering.as_ref()).collect();
    let [tampering] = &tampered[..] else { panic!("one tampering is left") };
    let [change] = &tampering.changes[..] else { panic!("in one place") };
    assert_eq!((change.buffer, tampering.card.is_some()), (1, false));
    assert!(change.bytes.len() <= 2);
}

/// An engine that panics is cut down as well.
#[test]
fn a_panic_is_cut_down() {
    let turn: Turn = |station, call, _, _| {
        assert!(*call != Call::Load || kinds(&station.card.script, 0x63) == 0, "a union");
    };
    let (first, wrong) = (fast(), Instead { turn, ..FAST });
    let engines: [&dyn Engine; 2] = [&first, &wrong];
    let (index, kept) = (0..2000)
        .find_map(|index| {
            let mut coverage = Coverage::default();
            let case = Case::new(5, index, engines, &mut coverage).keeping();
            let mut kept = case.kept()?;
            let ranks = kept.station.ranks.clone();
            kept.moves = vec![compare::replay::Move { tampering: None, ranks, call: Call::Load }];
            kept.play(engines).map(|_| (index, kept))
        })
        .expect("some script has a union");
    let small = shrink(kept, Patience::default(), &mut |replay| replay.play(engines).is_some());
    let script = &small.station.card.script;
    assert_eq!(small.play(engines).map(|(_, d)| d.breach), Some(Breach::Panic), "case {index}");
    assert!(script.len() <= 11 + 1 + 2 + 1, "{script:02x?}");
}

/// The comparison prints the smaller case: what it shows, its card and its calls.
#[test]
fn the_smaller_case_is_told() {
    let turn: Turn = |station, call, code, _| {
        if *call == Call::Load && kinds(&station.card.script, 0x74) > 0 && *code == 0 {
            *code = 7;
        }
    };
    let (first, wrong) = (fast(), Instead { turn, ..FAST });
    let mut compare = compare([&first, &wrong]);
    let plan = Plan { seed: 5, cases: 200, ..Plan::NONE };
    assert_eq!(compare.run(&plan).differences, 1);
    let index = (0..200)
        .find(|index| {
            let plan = Plan { from: *index, cases: 1, ..plan.clone() };
            compare.run(&plan).differences == 1
        })
        .expect("the case is found again");
    let text = compare.smaller(5, index, &Difference::new(Breach::Answers, String::new()));
    let lines: Vec<&str> = text.lines().map(str::trim).collect();
    assert!(
        lines[0].starts_with("smaller, ") && lines[0].contains("code: 0") && lines[0].contains("code: 7"),
        "{text}"
    );
    assert!(lines.contains(&"load") && lines.contains(&"script 747171"), "{text}");
}

/// Trees are read and written back byte for byte; what is no tree is none.
#[test]
fn trees() {
    let script = [0x74, 0x71, 0x72, 0x32, 5, 1, 0x71];
    let mut root = Node::read(&script).expect("a tree");
    assert_eq!(root.bytes(), script);
    assert_eq!((root.count(), root.at(3).map(|node| node.kind)), (5, Some(0x32)));
    root.renumber(&|number| number + 1);
    assert_eq!(root.bytes(), [0x74, 0x71, 0x72, 0x32, 6, 1, 0x71]);
    for bad in [&script[..6], &[0x71, 0x71], &[], &[0x99]] {
        assert_eq!(Node::read(bad), None);
    }
}
