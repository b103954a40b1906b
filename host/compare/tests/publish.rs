//! Engines that publish something else, or refuse otherwise: each is found, also where both engines are wrong alike.

use compare::call::engine::{fast, with, Second, Ways};
use compare::call::{Call, Engine, Made, Station, UNWRITTEN};
use compare::judge::published::{self, page_of};
use compare::judge::ranks::each_once;
use compare::judge::{Breach, History};
use compare::replay::Replay;
use compare::shrink::{shrink, Patience};
use second::arcs;
use second::publish::{self, Publishing};
use second::seek::Seek;
use second::sound::Held;
use second::term::Term;
use second::types::Datatype;
use second::write::{success, terms, triple, Bytes};
use willetcoffer::limits::{
    FETCHED_OFFSET, OBJECT_OFFSET, PAGE_LIMIT, PROPERTY_OFFSET, PUBLISH_REPORT_WIDTH, TAG_WIDTH, TEXT_WIDTH,
};
use willetcoffer::page::records;
use willetcoffer::Card;
use wrong::{differences, differing, How, Instead, Turn, FAST};

mod wrong;

const SEED: u64 = 23;
const CASES: u64 = 1500;

/// The first breach of two engines.
fn breach(engines: [&dyn Engine; 2]) -> Option<Breach> {
    wrong::breach(SEED, CASES, engines)
}

/// Whether a case shows one of these breaches; another case may show another, as an engine is held to more than one law.
fn shows(engines: [&dyn Engine; 2], breaches: &[Breach]) -> bool {
    differences(SEED, CASES, engines).any(|difference| breaches.contains(&difference.breach))
}

/// Whether it is found beside an engine that is right, as other answers, and beside itself, as this breach.
fn found(engine: &dyn Engine, alone: Breach) -> bool {
    let beside = shows([&fast(), engine], &[Breach::Answers, Breach::Tables]);
    let alike = shows([engine, engine], &[alone]);
    if !(beside && alike) {
        eprintln!("found beside a right one: {beside}; as {alone:?} alone: {alike}");
    }
    beside && alike
}

fn publishing(publishing: Publishing) -> Second<Seek> {
    with("wrong", [arcs::solve; 2], Seek).by(Ways { publishing, ..Ways::FAST })
}

/// The page's records, each made into something else, or left out.
fn each_record(held: &Held, graph: u16, change: impl Fn(&[u8]) -> Option<Bytes>) -> Bytes {
    let page = publish::fast(held, graph);
    records(&page).filter_map(change).collect::<Vec<_>>().concat()
}

/// The page's records in the order of what each is made into.
fn sorted<K: Ord>(held: &Held, graph: u16, key: impl FnMut(&&[u8]) -> K) -> Bytes {
    let page = in_the_order_of_quads(held, graph);
    let mut all: Vec<&[u8]> = records(&page).collect();
    all.sort_by_key(key);
    all.concat()
}

fn in_the_order_of_quads(held: &Held, graph: u16) -> Bytes {
    let term = |number: u16| *held.loaded.terms.get(usize::from(number)).expect("a term in use");
    let of_graph = held.quads.iter().filter(|quad| quad[0] == graph);
    let record = |[_, s, p, o]: &[u16; 4]| match [s, p, o].map(|number| term(*number)) {
        [Term::Uri(subject), Term::Uri(property), object] => triple(&subject, &property, &object),
        _ => Bytes::new(),
    };
    of_graph.flat_map(record).collect()
}

fn subject(record: &[u8]) -> &[u8] {
    &record[1..PROPERTY_OFFSET]
}

fn property(record: &[u8]) -> &[u8] {
    &record[PROPERTY_OFFSET..OBJECT_OFFSET]
}

/// The amount of a number's record.
fn amount(record: &[u8]) -> Option<i64> {
    record[OBJECT_OFFSET..].try_into().ok().map(i64::from_le_bytes)
}

#[test]
fn engines_that_are_right() {
    assert_eq!(breach([&fast(), &publishing(publish::plain)]), None);
    assert_eq!(breach([&fast(), &publishing(|held, graph| sorted(held, graph, |record| record.to_vec()))]), None);
}

#[test]
fn another_order() {
    let wrong: [Publishing; 10] = [
        // As the quads stand, by the terms' numbers.
        in_the_order_of_quads,
        // The last first.
        |held, graph| {
            let page = publish::fast(held, graph);
            records(&page).collect::<Vec<_>>().into_iter().rev().flatten().copied().collect()
        },
        // The kind last, or not at all.
        |held, graph| sorted(held, graph, |record| [&record[1..], &record[..1]].concat()),
        // The property before the subject.
        |held, graph| sorted(held, graph, |r| (r[0], property(r).to_vec(), subject(r).to_vec(), r.to_vec())),
        // The object before subject and property.
        |held, graph| sorted(held, graph, |r| (r[0], r[OBJECT_OFFSET..].to_vec(), r.to_vec())),
        // Numbers by their amounts.
        |held, graph| sorted(held, graph, |r| (r[..OBJECT_OFFSET].to_vec(), amount(r), r.to_vec())),
        // Numbers by their bytes from the highest on.
        |held, graph| sorted(held, graph, |r| (r[..OBJECT_OFFSET].to_vec(), amount(r).map(|n| n as u64), r.to_vec())),
        // Objects are not looked at.
        |held, graph| sorted(held, graph, |r| r[..OBJECT_OFFSET].to_vec()),
        // Strings by text before tag.
        |held, graph| {
            sorted(held, graph, |r| {
                let text = if r[0] == 0x82 { OBJECT_OFFSET + TAG_WIDTH } else { OBJECT_OFFSET };
                (r[..OBJECT_OFFSET].to_vec(), r[text..].to_vec(), r.to_vec())
            })
        },
        // Letters without their case first.
        |held, graph| sorted(held, graph, |r| (r[0], r[1..].to_ascii_lowercase(), r.to_vec())),
    ];
    for (place, publishing_so) in wrong.into_iter().enumerate() {
        assert!(found(&publishing(publishing_so), Breach::Published), "{place}");
    }
}

/// The same texts, of which so many bytes count for the order.
#[test]
fn an_order_that_does_not_look_at_all_of_a_text() {
    fn by_beginnings(held: &Held, graph: u16, bytes: usize) -> Bytes {
        sorted(held, graph, |r| {
            let object = &r[OBJECT_OFFSET..];
            (
                r[0],
                subject(r)[..bytes].to_vec(),
                property(r)[..bytes].to_vec(),
                object[..bytes.min(object.len())].to_vec(),
            )
        })
    }
    let wrong: [Publishing; 3] = [
        |held, graph| by_beginnings(held, graph, 40),
        |held, graph| by_beginnings(held, graph, TEXT_WIDTH - 1),
        |held, graph| by_beginnings(held, graph, 8),
    ];
    for (place, publishing_so) in wrong.into_iter().enumerate() {
        assert!(found(&publishing(publishing_so), Breach::Published), "{place}");
    }
}

#[test]
fn other_records() {
    fn without_last(page: Bytes) -> Bytes {
        let all: Vec<&[u8]> = records(&page).collect();
        all[..all.len().saturating_sub(1)].concat()
    }
    let wrong: [Publishing; 14] = [
        // Nothing; all but the last; the first alone.
        |_, _| Bytes::new(),
        |held, graph| without_last(publish::fast(held, graph)),
        |held, graph| records(&publish::fast(held, graph)).next().unwrap_or_default().to_vec(),
        // Each twice.
        |held, graph| each_record(held, graph, |record| Some(record.repeat(2))),
        // Of all graphs.
        |held, _| {
            let mut all: Vec<Bytes> = Vec::new();
            for graph in &held.machine.fetched {
                all.extend(records(&publish::fast(held, *graph)).map(<[u8]>::to_vec));
            }
            all.sort_unstable();
            all.dedup();
            all.concat()
        },
        // URIs are left out, or dateTimes.
        |held, graph| each_record(held, graph, |record| (record[0] != 0x81).then(|| record.to_vec())),
        |held, graph| each_record(held, graph, |record| (record[0] != 0x85).then(|| record.to_vec())),
        // The kind of the term.
        |held, graph| each_record(held, graph, |record| Some([&[record[0] - 0x70], &record[1..]].concat())),
        // Integers as decimals.
        |held, graph| {
            each_record(held, graph, |record| match (record[0], amount(record)) {
                (0x83, Some(n)) => {
                    let millionths = n.wrapping_mul(1_000_000).to_le_bytes();
                    Some([&[0x84], &record[1..OBJECT_OFFSET], &millionths].concat())
                }
                _ => Some(record.to_vec()),
            })
        },
        // Strings without their tags.
        |held, graph| {
            each_record(held, graph, |record| {
                let mut record = record.to_vec();
                if record[0] == 0x82 {
                    record[OBJECT_OFFSET..][..TAG_WIDTH].fill(0);
                }
                Some(record)
            })
        },
        // Texts of 40 bytes; the last byte of a text left out.
        |held, graph| cut(held, graph, 40),
        |held, graph| cut(held, graph, TEXT_WIDTH - 1),
        // Object and subject of a URI's record change places.
        |held, graph| {
            each_record(held, graph, |record| match record[0] {
                0x81 => Some([&record[..1], &record[OBJECT_OFFSET..], property(record), subject(record)].concat()),
                _ => Some(record.to_vec()),
            })
        },
        // What a page may not have is cut off.
        |held, graph| {
            let page = publish::fast(held, graph);
            let ends = records(&page).scan(0, |end, record| {
                *end += record.len();
                Some(*end)
            });
            let end = ends.take_while(|end| *end <= PAGE_LIMIT).last().unwrap_or(0);
            page[..end].to_vec()
        },
    ];
    for (place, publishing_so) in wrong.into_iter().enumerate() {
        assert!(found(&publishing(publishing_so), Breach::Published), "{place}");
    }
}

/// Texts cut off after so many bytes.
fn cut(held: &Held, graph: u16, bytes: usize) -> Bytes {
    each_record(held, graph, |record| {
        let mut record = record.to_vec();
        record[1 + bytes..PROPERTY_OFFSET].fill(0);
        record[PROPERTY_OFFSET + bytes..OBJECT_OFFSET].fill(0);
        let text = match record[0] {
            0x81 => OBJECT_OFFSET,
            0x82 => OBJECT_OFFSET + TAG_WIDTH,
            _ => return Some(record),
        };
        record[text + bytes..].fill(0);
        Some(record)
    })
}

/// Makes the call with another graph or buffer, what is written put into the lent buffer.
fn instead(station: &mut Station, report: &mut [u8], graph: u64, room: usize) -> u32 {
    let mut page = vec![UNWRITTEN; room];
    std::mem::swap(&mut station.page, &mut page);
    let code = fast().call(station, &Call::Publish { graph, room, report: report.len() }, report);
    std::mem::swap(&mut station.page, &mut page);
    if code == 0 {
        station.page.iter_mut().zip(page).for_each(|(byte, written)| *byte = written);
    }
    code
}

/// 22 and 23 for others, in another order, or not at all.
#[test]
fn other_refusals() {
    fn refuses(
        station: &mut Station,
        call: &Call,
        report: &mut [u8],
        how: fn(&Station, u64, usize) -> Option<u32>,
    ) -> u32 {
        let code = fast().call(station, call, report);
        let Call::Publish { graph, room, .. } = call else { return code };
        if ![0, 22, 23].contains(&code) {
            return code;
        }
        let due = how(station, *graph, *room).unwrap_or(code);
        if due != code {
            report.fill(UNWRITTEN);
            station.page.fill(UNWRITTEN);
            if due == 0 {
                report.fill(0);
            }
        }
        due
    }
    let wrong: [How; 13] = [
        // An empty graph counts as not fetched.
        |s, c, r| refuses(s, c, r, |s, graph, _| page_of(s, graph).is_empty().then_some(22)),
        // A graph that is not fetched is an empty one.
        |s, c, r| refuses(s, c, r, |s, graph, _| (!s.has_fetched(graph)).then_some(0)),
        // Only numbers past the terms, or past the table, are not fetched.
        |s, c, r| refuses(s, c, r, |s, graph, _| (graph < s.used() as u64 && !s.has_fetched(graph)).then_some(0)),
        |s, c, r| refuses(s, c, r, |s, graph, _| (graph < 512 && !s.has_fetched(graph)).then_some(0)),
        // 12 for what is no URI; for all that are not fetched.
        |s, c, r| refuses(s, c, r, |s, graph, _| (graph >= s.used() as u64).then_some(12)),
        |s, c, r| refuses(s, c, r, |s, graph, _| (!s.has_fetched(graph)).then_some(12)),
        // An empty buffer comes first.
        |s, c, r| refuses(s, c, r, |_, _, room| (room == 0).then_some(23)),
        // One byte more is asked for.
        |s, c, r| {
            refuses(s, c, r, |s, graph, room| (s.has_fetched(graph) && room <= page_of(s, graph).len()).then_some(23))
        },
        // A buffer that is longer is no buffer of that page.
        |s, c, r| {
            refuses(s, c, r, |s, graph, room| (s.has_fetched(graph) && room != page_of(s, graph).len()).then_some(23))
        },
        |s, c, r| {
            refuses(s, c, r, |s, graph, room| (s.has_fetched(graph) && room != page_of(s, graph).len()).then_some(1))
        },
        // A page of more than 65,536 bytes meets 13, or 23.
        |s, c, r| {
            refuses(s, c, r, |s, graph, _| (s.has_fetched(graph) && page_of(s, graph).len() > PAGE_LIMIT).then_some(13))
        },
        |s, c, r| {
            refuses(s, c, r, |s, graph, _| (s.has_fetched(graph) && page_of(s, graph).len() > PAGE_LIMIT).then_some(23))
        },
        // Of the number 16 bits count.
        |station, call, report| match call {
            Call::Publish { graph, room, .. } => instead(station, report, *graph & 0xffff, *room),
            _ => fast().call(station, call, report),
        },
    ];
    for (place, how) in wrong.into_iter().enumerate() {
        // 1 where it is not due has a breach of its own.
        let alone = if place == 9 { Breach::Lent } else { Breach::Published };
        assert!(found(&Instead { call: &how, ..FAST }, alone), "{place}");
    }
}

/// A short buffer gets as much as fits, or is told to be enough.
#[test]
fn short_buffers() {
    fn as_much_as_fits(station: &mut Station, call: &Call, report: &mut [u8], told: u32) -> u32 {
        match (fast().call(station, call, report), call) {
            (23, Call::Publish { graph, .. }) => {
                let page = page_of(station, *graph);
                station.page.iter_mut().zip(&page).for_each(|(byte, written)| *byte = *written);
                if told == 0 {
                    let length = (station.page.len() as u32).to_le_bytes();
                    report.copy_from_slice(&length);
                }
                told
            }
            (code, _) => code,
        }
    }
    for (told, alone) in [(0, Breach::Published), (23, Breach::Kept)] {
        assert!(found(&Instead { call: &|s, c, r| as_much_as_fits(s, c, r, told), ..FAST }, alone), "{told}");
    }
}

/// Unsound stores are taken, or are looked at after the graph and the buffer.
#[test]
fn soundness() {
    let after: How = |station, call, report| match (fast().call(station, call, report), call) {
        (10, Call::Publish { graph, .. }) if !station.has_fetched(*graph) => 22,
        (10, Call::Publish { graph, room, .. }) if *room < page_of(station, *graph).len() => 23,
        (code, _) => code,
    };
    // What is unsound is not promised anything, so that alone it is not found.
    assert_eq!(breach([&fast(), &Instead { call: &after, ..FAST }]), Some(Breach::Answers));
    let never: How = |station, call, report| match (fast().call(station, call, report), call) {
        (10, Call::Publish { .. }) => 22,
        (code, _) => code,
    };
    assert_eq!(breach([&fast(), &Instead { call: &never, ..FAST }]), Some(Breach::Answers));
}

/// Another report, a rest that is touched, a refusal that writes, a station that is changed.
#[test]
fn what_is_written() {
    fn publishes(call: &Call, code: u32) -> bool {
        matches!(call, Call::Publish { .. }) && code == 0
    }
    let wrong: [(Turn, Breach); 9] = [
        // The number of records; the length of the buffer; not told; told in the other order of bytes.
        (
            |station, call, code, report| {
                if publishes(call, *code) {
                    let length = u32::from_le_bytes(report.try_into().unwrap()) as usize;
                    let count = records(&station.page[..length]).count() as u32;
                    report.copy_from_slice(&count.to_le_bytes());
                }
            },
            Breach::Published,
        ),
        (
            |station, call, code, report| {
                if publishes(call, *code) {
                    report.copy_from_slice(&(station.page.len() as u32).to_le_bytes());
                }
            },
            Breach::Published,
        ),
        (
            |_, call, code, report| {
                if publishes(call, *code) {
                    report.fill(0);
                }
            },
            Breach::Published,
        ),
        (
            |_, call, code, report| {
                if publishes(call, *code) {
                    report.reverse();
                }
            },
            Breach::Published,
        ),
        // The rest of the buffer is cleared, or one byte after the page is.
        (
            |station, call, code, report| {
                if publishes(call, *code) {
                    let length = u32::from_le_bytes(report.try_into().unwrap()) as usize;
                    station.page[length..].fill(0);
                }
            },
            Breach::Rest,
        ),
        (
            |station, call, code, report| {
                if publishes(call, *code) {
                    let length = u32::from_le_bytes(report.try_into().unwrap()) as usize;
                    station.page.get_mut(length).into_iter().for_each(|byte| *byte = 0);
                }
            },
            Breach::Rest,
        ),
        // The length that is missing is told with 23.
        (
            |station, call, code, report| {
                if let (Call::Publish { graph, .. }, 23) = (call, *code) {
                    let length = page_of(station, *graph).len() as u32;
                    report.copy_from_slice(&length.to_le_bytes());
                }
            },
            Breach::Kept,
        ),
        // The buffer is cleared with 22.
        (
            |station, call, code, _| {
                if let (Call::Publish { .. }, 22) = (call, *code) {
                    station.page.fill(0);
                }
            },
            Breach::Kept,
        ),
        // The quads are put in the order of their records.
        (
            |station, call, code, _| {
                if let (Call::Publish { graph, .. }, 0) = (call, *code) {
                    let mut quads = station.quads();
                    let mut own: Vec<(Vec<u8>, [u16; 4])> = station
                        .triples(*graph)
                        .zip(quads.iter().filter(|q| u64::from(q[0]) == *graph).copied())
                        .collect();
                    own.sort_unstable();
                    let mut own = own.into_iter().map(|(_, quad)| quad);
                    for quad in quads.iter_mut().filter(|quad| u64::from(quad[0]) == *graph) {
                        *quad = own.next().unwrap_or(*quad);
                    }
                    station.set_quads(&quads);
                }
            },
            Breach::Stores,
        ),
    ];
    for (place, (turn, alone)) in wrong.into_iter().enumerate() {
        assert!(found(&Instead { turn, ..FAST }, alone), "{place}");
    }
}

/// A report of another length is taken; ranks are asked for, though none are lent.
#[test]
fn other_lengths() {
    fn taken(station: &mut Station, call: &Call, report: &mut [u8], least: usize) -> u32 {
        match call {
            Call::Publish { graph, room, .. } if report.len() >= least => {
                let mut right = [UNWRITTEN; PUBLISH_REPORT_WIDTH];
                let code = instead(station, &mut right, *graph, *room);
                report.iter_mut().zip(right).for_each(|(byte, right)| *byte = right);
                code
            }
            _ => fast().call(station, call, report),
        }
    }
    for least in [4, 0] {
        let taken = Instead { call: &|station, call, report| taken(station, call, report, least), ..FAST };
        assert!(found(&taken, Breach::Lent), "{least}");
    }
    let late: How = |station, call, report| match (fast().call(station, call, report), call) {
        (1, Call::Publish { graph, .. }) if !station.has_fetched(*graph) => 22,
        (code, _) => code,
    };
    assert!(found(&Instead { call: &late, ..FAST }, Breach::Lent));
    let ranked: Turn = |station, call, code, report| {
        if matches!(call, Call::Publish { .. }) && !each_once(&station.ranks) {
            (*code, station.page) = (21, vec![UNWRITTEN; station.page.len()]);
            report.fill(UNWRITTEN);
        }
    };
    assert!(found(&Instead { turn: ranked, ..FAST }, Breach::Lent));
}

/// What the page was published from is right, and the laws are not kept.
#[test]
fn laws() {
    // A page for a fetched graph moves it to the end of the list.
    let moved: Turn = |station, call, code, _| {
        let fetched = station.fetched();
        if let (Call::Page { graph, .. }, 0) = (call, *code) {
            let others = fetched.iter().filter(|fetched| **fetched as u64 != *graph);
            let list: Vec<usize> = others.copied().chain([*graph as usize]).collect();
            list.into_iter().enumerate().for_each(|(place, graph)| station.set(FETCHED_OFFSET + 2 * place, graph));
        }
    };
    assert!(found(&Instead { turn: moved, ..FAST }, Breach::TakenIn));
    // Under the script of the other station, success alone, a graph is published by the numbers of its terms.
    let by_numbers: How = |station, call, report| {
        let code = fast().call(station, call, report);
        if let (Call::Publish { graph, .. }, 0, [0x71]) = (call, code, &station.card.script[..]) {
            let page: Vec<u8> = station.triples(*graph).flatten().collect();
            station.page[..page.len()].copy_from_slice(&page);
        }
        code
    };
    let by_numbers = Instead { call: &by_numbers, ..FAST };
    let alike = breach([&by_numbers, &by_numbers]);
    assert!(matches!(alike, Some(Breach::Alike | Breach::Published)), "{alike:?}");
}

/// A graph that has more bytes than the page which filled it.
#[test]
fn the_law_of_room() {
    let uris = ["u:g", "p:likes"].map(second::write::uri);
    let schema = second::write::schema(&[("p:likes", Datatype::AnyUri)]);
    let card = Card { terms: terms(&uris[..1]), schema, script: success() };
    let mut station = Station::new(card, 0);
    let [Term::Uri(graph), Term::Uri(likes)] = uris else { panic!("two URIs") };
    let record = triple(&graph, &likes, &Term::Uri(graph));
    for call in [Call::Load, Call::page(0, record.clone())] {
        assert_eq!(station.call(&fast(), &call).code, 0);
    }
    let engines: [&dyn Engine; 2] = [&fast(), &fast()];
    let call = Call::publish(0, record.len());
    let made = Made::new(&station, &call, engines);
    let held = |filled: usize, tampered: bool| {
        let history = History { filled: [(0, filled)].into(), ..History::default() };
        published::held(&made, engines, tampered, &history).map_err(|difference| difference.breach)
    };
    let more = ["taken in again", "the same elsewhere"];
    assert_eq!(held(record.len(), false), Ok([&["as many bytes as its page"], &more[..]].concat()));
    assert_eq!(held(record.len() + 1, false), Ok([&["fewer bytes than its page"], &more[..]].concat()));
    assert_eq!(held(record.len() - 1, false), Err(Breach::Fits));
    assert_eq!(held(record.len() - 1, true), Ok(more.to_vec()));
}

/// A case that shows it is made again and cut down to few moves.
#[test]
fn cut_down() {
    let (first, other) = (fast(), publishing(in_the_order_of_quads));
    let engines: [&dyn Engine; 2] = [&first, &other];
    let (kept, _) = differing(SEED, CASES, engines).next().expect("a case shows it");
    let shows = |replay: &Replay| replay.play(engines).is_some_and(|(_, shown)| shown.breach == Breach::Answers);
    assert!(shows(&kept));
    let small = shrink(kept, Patience::default(), &mut |replay| shows(replay));
    // The load, a page of two records, and the graph published.
    let pages =
        small.moves.iter().filter_map(|m| if let Call::Page { page, .. } = &m.call { Some(page) } else { None });
    let count: usize = pages.map(|page| records(page).count()).sum();
    assert!(small.moves.len() <= 3 && count <= 2, "{} moves, {count} records", small.moves.len());
    assert!(small.tell(engines).contains("publish graph"));
}
