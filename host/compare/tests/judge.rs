//! The judge: promises that two engines may break alike, so that comparing them would not show it.

use compare::call::Call;
use compare::judge::Breach;
use wrong::{Instead, Turn, FAST};

mod wrong;

/// The first breach of two engines that are wrong in the same way.
fn breach(turn: Turn) -> Option<Breach> {
    let engine = Instead { turn, ..FAST };
    wrong::breach(17, 2000, [&engine, &engine])
}

#[test]
fn an_engine_that_is_right() {
    assert_eq!(breach(|_, _, _, _| {}), None);
}

#[test]
fn a_refused_call_that_changes_a_table() {
    let clears: Turn = |station, _, code, _| {
        if *code != 0 {
            station.quad_table.fill(0);
        }
    };
    assert_eq!(breach(clears), Some(Breach::Kept));
}

#[test]
fn a_fault() {
    let faulty: Turn = |_, call, code, _| {
        if let (Call::Run { .. }, 0) = (call, *code) {
            *code = second::calls::FAULT + 3;
        }
    };
    assert_eq!(breach(faulty), Some(Breach::Fault));
}

#[test]
fn refusal_10_of_what_nobody_tampered_with() {
    let distrustful: Turn = |_, call, code, _| {
        if let (Call::Run { .. }, 0) = (call, *code) {
            *code = 10;
        }
    };
    assert_eq!(breach(distrustful), Some(Breach::Unsound));
}

#[test]
fn steps_that_do_not_go_with_the_budget() {
    let spends: Turn = |_, call, code, report| {
        if let (Call::Run { .. }, 0) = (call, *code) {
            report.copy_from_slice(&[0, 0, 0, 0, 3, 0, 0, 0]);
        }
    };
    let invents: Turn = |_, call, code, report| {
        if let (Call::Run { .. }, 0) = (call, *code) {
            report[3] = 1;
        }
    };
    let babbles: Turn = |_, call, code, report| {
        if let (Call::Run { .. }, 0) = (call, *code) {
            report[4] = 9;
        }
    };
    for wrong in [spends, invents, babbles] {
        assert_eq!(breach(wrong), Some(Breach::Steps));
    }
}

#[test]
fn steps_that_do_not_go_with_the_total() {
    let tireless: Turn = |_, call, code, report| {
        if let (Call::Run { budget, .. }, 0) = (call, *code) {
            report[..4].copy_from_slice(&(*budget as u32).to_le_bytes());
            report[4..].copy_from_slice(&[3, 0, 0, 0]);
        }
    };
    // Waiting where the script has ended.
    let patient: Turn = |_, call, code, report| {
        if let (Call::Run { .. }, 0, 0) = (call, *code, report.get(4).copied().unwrap_or(1)) {
            report[4] = 2;
        }
    };
    let miscounts: Turn = |_, call, code, report| {
        if let (Call::Total { .. }, 0) = (call, *code) {
            report[0] = report[0].wrapping_add(1);
        }
    };
    for wrong in [tireless, patient, miscounts] {
        assert_eq!(breach(wrong), Some(Breach::Total));
    }
}
