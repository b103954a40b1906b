//! Refusal 10, clause by clause, and what is sound though it may not look so.

mod common;
use common::{stock, Station};
use second::limits::{SLOT, TERM_TABLE, TEXT};
use second::term::{fill, Term};
use second::write::*;

/// Terms: 0 g:a, 1 g:b, 2 is 60; then p:speed 3, p:addr 4, p:name 5; from the page l:x 6, "x" 7, l:y 8, "y" 9.
///
/// The script: a sequence at 0, its first a from named at 1 with the each block at 5, whose script is a from named of a
/// variable; its second a success. The station stands in the each block's script, graph g:a fetched.
fn station() -> Station {
    let query = pattern(con(0), var(3), con(5), var(7));
    let block = each(&[(3, 0), (7, 0)], query, from_named(var(3), success()));
    let script = sequence(from_named(con(0), block), success());
    let mut s = Station::loaded(terms(&[uri("g:a"), uri("g:b"), Term::Int(60)]), stock(), script);
    let name = |subject: &[u8], text| triple(&fill(subject), &fill(b"p:name"), &string(text));
    assert_eq!(s.page(0, &[name(b"l:x", "x"), name(b"l:y", "y")].concat()), Ok(0));
    // Sequence, from named, the first answer; then l:x is wanted.
    assert_eq!(s.run(50, 0), Ok((3, 1, 6)));
    s
}

/// Items: success, the each block with its last tuple, the from named of the variable.
const FIRST: usize = 198;
const BLOCK: usize = FIRST + 12;
const TOP: usize = FIRST + 24;

fn unsound(change: impl Fn(&mut Station)) {
    let mut s = station();
    change(&mut s);
    assert_eq!(s.run(0, 0), Err(10));
    assert_eq!(s.page(0, &[]), Err(10));
}

/// The change is sound; gives what the next run answers.
fn sound(change: impl Fn(&mut Station)) -> (u32, u8, u16) {
    let mut s = station();
    change(&mut s);
    s.run(9, 0).unwrap()
}

fn put(bytes: &mut [u8], at: usize, number: u16) {
    bytes[at..at + 2].copy_from_slice(&number.to_le_bytes());
}

#[test]
fn the_station_itself() {
    assert_eq!(sound(|_| ()), (0, 1, 6));
    let s = station();
    let offsets = [FIRST, BLOCK, TOP].map(|at| s.number(at));
    // The sequence takes 1 byte, the from named 4; the block's head 11 and its pattern 11; the from named of a variable 3
    // and its success 1.
    assert_eq!(offsets, [1 + 4 + 11 + 11 + 3 + 1, 1 + 4, 1 + 4 + 11 + 11]);
    assert_eq!((s.bound(3), s.bound(7), s.number(0)), (Some(6), Some(7), 3));
}

#[test]
fn these_load() {
    unsound(|s| s.terms[0] = 0x16);
    unsound(|s| s.schema.truncate(5));
    unsound(|s| s.script.clear());
    unsound(|s| {
        let again = s.terms[..=TEXT].to_vec();
        s.terms.extend(again);
    });
    // Another script that works out to the same types and fits tables and stack is sound.
    let other = |s: &mut Station| {
        let at = s.script.len() - 1;
        assert_eq!(s.script[at], 0x71);
        s.script.pop();
        s.script.extend(from_named(con(1), success()));
    };
    assert_eq!(sound(other), (0, 1, 6));
}

#[test]
fn reported_types() {
    unsound(|s| s.saved[6 + 3] = 9);
    unsound(|s| s.saved[6 + 7] = 0);
    unsound(|s| s.saved[6] = 1);
}

#[test]
fn term_slots() {
    unsound(|s| s.term_table[SLOT * 6] = 0x16);
    unsound(|s| s.term_table[SLOT * 7 - 1] = 1);
    unsound(|s| s.term_table.copy_within(SLOT * 6..SLOT * 7, SLOT * 8));
    unsound(|s| s.term_table.copy_within(0..SLOT, SLOT * 10));
    unsound(|s| s.term_table[SLOT + 1] = b'h');
    unsound(|s| s.term_table[SLOT * 11 - 1] = 1);
    unsound(|s| s.term_table[TERM_TABLE - 1] = 1);
    unsound(|s| s.term_table[SLOT * 5..].fill(0));
    // A gap: slot 9 empty, slot 10 used.
    unsound(|s| s.term_table.copy_within(SLOT * 9..SLOT * 10, SLOT * 11));
    // A further term, which no quad names.
    assert_eq!(sound(|s| s.term_table[SLOT * 10..SLOT * 11].copy_from_slice(&Term::Int(8).slot())), (0, 1, 6));
}

#[test]
fn quads() {
    unsound(|s| put(&mut s.quad_table, 0, 1));
    unsound(|s| put(&mut s.quad_table, 2, 7));
    unsound(|s| put(&mut s.quad_table, 4, 6));
    unsound(|s| put(&mut s.quad_table, 6, 2));
    unsound(|s| put(&mut s.quad_table, 6, 10));
    unsound(|s| s.quad_table.copy_within(0..8, 8));
    unsound(|s| s.quad_table[16] = 1);
    unsound(|s| s.quad_table[4095] = 1);
    unsound(|s| put(&mut s.saved, 2, 1));
    unsound(|s| put(&mut s.saved, 2, 513));
    // Their order is fixed.
    unsound(|s| s.quad_table[..16].rotate_left(8));
}

#[test]
fn fetched_graphs() {
    unsound(|s| put(&mut s.saved, 4, 0));
    unsound(|s| put(&mut s.saved, 4, 65));
    unsound(|s| put(&mut s.saved, 4, 2));
    let fetch = |graph| {
        move |s: &mut Station| {
            put(&mut s.saved, 4, 2);
            put(&mut s.saved, 72, graph);
        }
    };
    unsound(fetch(2));
    unsound(fetch(10));
    // With l:x fetched: from named, success, the next answer, then l:y is wanted.
    assert_eq!(sound(fetch(6)), (3, 1, 8));
}

#[test]
fn stack_items() {
    unsound(|s| put(&mut s.saved, FIRST, 2));
    unsound(|s| put(&mut s.saved, FIRST, 16));
    unsound(|s| put(&mut s.saved, FIRST, 2047));
    // The second item from the bottom must be at depth 2 or more, the third at 3.
    unsound(|s| put(&mut s.saved, BLOCK, 0));
    unsound(|s| put(&mut s.saved, TOP, 1));
    unsound(|s| put(&mut s.saved, 0, 25));
    unsound(|s| s.saved[TOP + 3] = 1);
    unsound(|s| s.saved[BLOCK + 2] = 2);
    // Any record deep enough, and any stack that no run reaches.
    assert_eq!(sound(|s| put(&mut s.saved, FIRST, 0)), (0, 1, 6));
    assert_eq!(sound(|s| put(&mut s.saved, 0, 0)), (0, 0, 0));
}

#[test]
fn last_tuples() {
    unsound(|s| put(&mut s.saved, BLOCK + 4, 10));
    unsound(|s| put(&mut s.saved, BLOCK + 6, 65_535));
    let fetched = |s: &mut Station| {
        put(&mut s.saved, 4, 2);
        put(&mut s.saved, 72, 6);
    };
    // Nothing is asked of their types, and nothing of the places past the count.
    let other = |s: &mut Station| {
        fetched(s);
        put(&mut s.saved, BLOCK + 4, 7);
        put(&mut s.saved, BLOCK + 8, 600);
    };
    assert_eq!(sound(other), (3, 1, 8));
    // Without the mark the block begins again: from named, success, l:x again, its from named, its success, then l:y.
    let again = |s: &mut Station| {
        fetched(s);
        s.saved[BLOCK + 2] = 0;
        put(&mut s.saved, BLOCK + 4, 600);
    };
    assert_eq!(sound(again), (6, 1, 8));
    // A mark on another record means nothing.
    let elsewhere = |s: &mut Station| {
        s.saved[TOP + 2] = 1;
        put(&mut s.saved, TOP + 4, 600);
    };
    assert_eq!(sound(elsewhere), (0, 1, 6));
}

#[test]
fn bound_variables() {
    unsound(|s| s.saved[22 + 3] = 0);
    unsound(|s| s.saved[22 + 3] = 2);
    unsound(|s| put(&mut s.saved, 38 + 6, 7));
    unsound(|s| put(&mut s.saved, 38 + 6, 10));
    unsound(|s| put(&mut s.saved, 38 + 14, 6));
    unsound(|s| s.saved[22] = 1);
    // Variable 7 is free in no item, so it may be unbound; its number then means nothing.
    let unbound = |s: &mut Station| {
        s.saved[22 + 7] = 0;
        put(&mut s.saved, 38 + 14, 600);
    };
    assert_eq!(sound(unbound), (0, 1, 6));
    assert_eq!(sound(|s| put(&mut s.saved, 38 + 6, 1)), (0, 1, 1));
}
