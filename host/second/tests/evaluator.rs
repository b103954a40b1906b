//! The evaluator of tuples: lines worked out by hand, whatever the input.

mod common;
use common::{stock, Station};
use second::evaluate;
use second::limits::{DEPTH, EVALUATOR, FIRST_SECOND, LAST_SECOND, RANKS, TUPLE};
use second::term::{fill, Term};
use second::write::*;
use std::io::Write;
use std::path::Path;
use std::process::{Command, Stdio};
use std::{env, fs};

/// Terms: 0 g:stock, 1 is 60; then p:speed 2, p:addr 3, p:name 4; from the page l:a 5, 70 6, l:b 7, 50 8.
///
/// $s 0 and $v 1 with speed $v; over 60, or of a locomotive that lives nowhere. An each block, or a once block.
fn station(is_each: bool) -> Station {
    let fast = filter(less(con(1), var(1)));
    let query = both(pattern(con(0), var(0), con(2), var(1)), union(fast, pattern(con(0), var(0), con(3), con(1))));
    let script = from_named(con(0), block(is_each, &[(0, 0), (1, 0)], query, success()));
    let mut station = Station::loaded(terms(&[uri("g:stock"), Term::Int(60)]), stock(), script);
    let speed = |subject: &[u8], amount| triple(&fill(subject), &fill(b"p:speed"), &Term::Int(amount));
    assert_eq!(station.page(0, &[speed(b"l:a", 70), speed(b"l:b", 50)].concat()), Ok(0));
    station
}

/// The station with its block on top.
fn at_block(is_each: bool) -> Station {
    let mut station = station(is_each);
    assert_eq!(station.run(1, 0), Ok((1, 3, 0)));
    station
}

fn input(station: &Station, now: i64, tuples: &[[u16; 4]]) -> Vec<u8> {
    let Station { ranks, terms, schema, script, term_table, quad_table, saved } = station;
    let lengths = [terms, schema, script].map(|part| (part.len() as u16).to_le_bytes()).concat();
    let tuples: Vec<u8> = tuples.iter().flatten().flat_map(|number| number.to_le_bytes()).collect();
    let lent = [ranks, &lengths, terms, schema, script, term_table, quad_table, saved].map(|part| &part[..]).concat();
    [lent, now.to_le_bytes().to_vec(), tuples].concat()
}

#[test]
fn a_line_for_each_tuple() {
    let tuples = [
        // l:a with 70: both, pattern, union, filter, less.
        [5, 6, 0, 0],
        // l:b with 50: the second pattern too.
        [7, 8, 0, 0],
        // l:a with 50 is no quad: both, pattern.
        [5, 8, 0, 0],
        // The rest is passed over, whatever it is.
        [5, 6, 600, 65_535],
    ];
    for is_each in [true, false] {
        assert_eq!(evaluate(&input(&at_block(is_each), 0, &tuples)), "true 5\nfalse 6\nfalse 2\ntrue 5\n");
        assert_eq!(evaluate(&input(&at_block(is_each), 0, &[])), "");
    }
}

#[test]
fn bad_tuples() {
    let tuples = [
        // 50 as a subject, l:a as a speed, one that is no term, also in the second place.
        [8, 6, 0, 0],
        [5, 5, 0, 0],
        [9, 6, 0, 0],
        [5, 9, 0, 0],
        [65_535, 6, 0, 0],
        // p:speed is a URI too.
        [2, 6, 0, 0],
    ];
    assert_eq!(evaluate(&input(&at_block(true), 0, &tuples)), "bad\nbad\nbad\nbad\nbad\nfalse 2\n");
}

/// The block of an item that has used a tuple is asked like any other, and the run's other bindings hold.
#[test]
fn bindings_of_the_run() {
    // $s 0 has the speed $v 1; of each such: whether $s has the speed $w 2.
    let has = |v| pattern(con(0), var(0), con(2), var(v));
    let inner = once(&[(2, 0)], has(2), success());
    let script = each(&[(0, 0), (1, 0)], has(1), inner);
    let mut station = Station { script, ..station(true) };
    assert_eq!(station.load(), 0);
    let speed = triple(&fill(b"l:a"), &fill(b"p:speed"), &Term::Int(70));
    assert_eq!(station.page(0, &speed), Ok(0));
    assert_eq!(station.run(1, 0), Ok((1, 3, 0)));
    // l:a is 5 and 70 is 6.
    assert_eq!(evaluate(&input(&station, 0, &[[6, 0, 0, 0], [1, 0, 0, 0]])), "true 1\nfalse 1\n");
    // The inner block and its success are done; the outer block is on top, its variables bound.
    assert_eq!(station.run(2, 0), Ok((2, 3, 0)));
    assert_eq!(evaluate(&input(&station, 0, &[[5, 6, 0, 0], [0, 6, 0, 0]])), "true 1\nfalse 1\n");
}

#[test]
fn now_is_the_one_given() {
    let script = once(&[], filter(equal(now(), con(0))), success());
    let station = Station::loaded(terms(&[Term::Time(5)]), Vec::new(), script);
    assert_eq!(evaluate(&input(&station, 5, &[[9; 4]])), "true 2\n");
    assert_eq!(evaluate(&input(&station, 6, &[[9; 4], [0; 4]])), "false 2\nfalse 2\n");
    for now in [FIRST_SECOND, LAST_SECOND] {
        assert_eq!(evaluate(&input(&station, now, &[[0; 4]])), "false 2\n");
    }
    for now in [FIRST_SECOND - 1, LAST_SECOND + 1, i64::MIN, i64::MAX] {
        assert_eq!(evaluate(&input(&station, now, &[[0; 4]])), "refused 11\n");
    }
}

#[test]
fn refusals_in_the_order_of_a_run_call() {
    let mut station = at_block(true);
    let bad_now = LAST_SECOND + 1;
    assert_eq!(evaluate(&input(&station, bad_now, &[])), "refused 11\n");
    station.term_table[0] ^= 1;
    assert_eq!(evaluate(&input(&station, 0, &[[0; 4]])), "refused 10\n");
    assert_eq!(evaluate(&input(&station, bad_now, &[])), "refused 10\n");
    station.ranks[94] = 95;
    assert_eq!(evaluate(&input(&station, bad_now, &[[0; 4]])), "refused 21\n");
    let whole = input(&station, 0, &[]);
    assert_eq!(evaluate(&whole[..whole.len() - 1]), "cut off\n");
}

/// Less on strings goes by the ranks given, text and tag. Terms: 0 "a", 1 "B", 2 "a"@en, 3 "a"@fr.
#[test]
fn ranks_are_those_given() {
    let script = once(&[(0, 2), (1, 2)], filter(less(var(0), var(1))), success());
    let listed = [string("a"), string("B"), tagged("en", "a"), tagged("fr", "a")];
    let mut station = Station::loaded(terms(&listed), Vec::new(), script);
    let tuples = [[0, 1, 0, 0], [1, 0, 0, 0], [2, 3, 0, 0], [3, 2, 0, 0], [0, 2, 0, 0], [0, 0, 0, 0]];
    let lines = |text: &str| text.split(' ').map(|holds| format!("{holds} 2\n")).collect::<String>();
    assert_eq!(evaluate(&input(&station, 0, &tuples)), lines("true false true false true false"));
    station.ranks = station.ranks.iter().map(|rank| 94 - rank).collect();
    assert_eq!(evaluate(&input(&station, 0, &tuples)), lines("false true false true true false"));
    station.ranks = (0..95).collect();
    assert_eq!(evaluate(&input(&station, 0, &tuples)), lines("false true true false true false"));
}

#[test]
fn no_block() {
    // From named is on top.
    let mut station = station(true);
    assert_eq!(evaluate(&input(&station, 0, &[[5, 6, 0, 0]])), "no block\n");
    assert_eq!(evaluate(&input(&station, 0, &[])), "no block\n");
    assert_eq!(evaluate(&input(&station, LAST_SECOND + 1, &[])), "refused 11\n");
    // Success, then nothing.
    assert_eq!(station.run(2, 0), Ok((2, 3, 0)));
    assert_eq!(evaluate(&input(&station, 0, &[[5, 6, 0, 0]])), "no block\n");
    assert_eq!(station.run(9, 0), Ok((2, 0, 0)));
    assert_eq!(evaluate(&input(&station, 0, &[[5, 6, 0, 0]])), "no block\n");
}

/// Wherever the input ends: before the first tuple may begin, and within a tuple; before anything else is looked at.
#[test]
fn cut_off() {
    let whole = input(&at_block(true), 0, &[[5, 6, 0, 0], [7, 8, 0, 0]]);
    let [first, second, end] = [2, 1, 0].map(|tuples| whole.len() - tuples * TUPLE);
    for length in (0..2000).chain(first - 600..first).chain(first + 1..second).chain(second + 1..end) {
        assert_eq!(evaluate(&whole[..length]), "cut off\n", "{length} bytes");
    }
    assert_eq!(evaluate(&whole[..first]), "");
    assert_eq!(evaluate(&whole[..second]), "true 5\n");
    assert_eq!(evaluate(&whole), "true 5\nfalse 6\n");
    let mut unsound = at_block(true);
    unsound.saved[0] = DEPTH as u8 + 1;
    let unsound = input(&unsound, i64::MAX, &[[5, 6, 0, 0]]);
    assert_eq!(evaluate(&unsound[..unsound.len() - 1]), "cut off\n");
    // Lengths that go past the end.
    assert_eq!(evaluate(&[&whole[..RANKS], &[0xff; 6], &whole[RANKS + 6..]].concat()), "cut off\n");
}

/// At most as many bytes as terms, schema and script that are full, and 64 tuples; before anything else is looked at.
#[test]
fn too_long() {
    let mut long = input(&at_block(true), 0, &[[5, 6, 0, 0]]);
    let tuples = (EVALUATOR - long.len()) / TUPLE;
    long.resize(long.len() + tuples * TUPLE, 0xff);
    assert_eq!(evaluate(&long), format!("true 5\n{}", "bad\n".repeat(tuples)));
    long.resize(EVALUATOR, 0);
    assert_ne!(evaluate(&long), "too long\n");
    long.resize(EVALUATOR + 1, 0);
    assert_eq!(evaluate(&long), "too long\n");
}

/// The program reads its standard input and writes what the library gives.
#[test]
fn the_program() {
    for input in [input(&at_block(true), 0, &[[5, 6, 0, 0], [9, 9, 9, 9]]), Vec::new()] {
        let mut child = Command::new(env!("CARGO_BIN_EXE_second-evaluate"))
            .stdin(Stdio::piped())
            .stdout(Stdio::piped())
            .spawn()
            .unwrap();
        child.stdin.take().unwrap().write_all(&input).unwrap();
        let output = child.wait_with_output().unwrap();
        assert_eq!(String::from_utf8(output.stdout).unwrap(), evaluate(&input));
    }
}

/// The input and the output that `rt check evaluate` tries its program with are these. With `SECOND_UPDATE` in the environment the input is
/// written anew.
#[test]
fn the_input_of_the_proved_program() {
    let folder = Path::new(env!("CARGO_MANIFEST_DIR")).join("../../crates/evaluate");
    // The first two hold or not by the speed; no term 9, no such quad, no term 600.
    let tuples = [[5, 6, 0, 0], [7, 8, 0, 0], [5, 9, 0, 0], [0, 6, 0, 0], [600, 6, 0, 0]];
    let input = input(&at_block(true), 0, &tuples);
    if env::var_os("SECOND_UPDATE").is_some() {
        fs::write(folder.join("stdin"), &input).expect("a file");
    }
    assert!(fs::read(folder.join("stdin")).expect("an input") == input, "SECOND_UPDATE=1 writes it anew");
    let lines = "true 5\nfalse 6\nbad\nfalse 2\nbad\n";
    assert_eq!(fs::read_to_string(folder.join("stdout")).expect("an output"), lines);
    assert_eq!(evaluate(&input), lines);
}
