//! The calls through the safe interface: each refusal with an input that meets it, lengths, and a run from load to end.

use willetcoffer::limits::{
    BUDGET_LIMIT, GRAPH_LIMIT, PAGE_LIMIT, SECONDS_AFTER, SECONDS_BEFORE, SLOT_WIDTH, TEXT_WIDTH,
};
use willetcoffer::limits::{
    PAGE_REPORT_WIDTH, QUAD_TABLE_WIDTH, QUAD_WIDTH, RANKS_WIDTH, RUN_REPORT_WIDTH, SAVED_WIDTH, SUGGEST_REPORT_WIDTH,
    TERM_TABLE_WIDTH, TOTAL_REPORT_WIDTH,
};
use willetcoffer::page::{record_width, records, triple};
use willetcoffer::ranks::{in_order, BUILT_IN, BUILT_IN_ORDER};
use willetcoffer::raw::{self, TablesMut, TablesRef};
use willetcoffer::script::*;
use willetcoffer::{Card, Datatype, PageReport, Quad, Refusal, RunReport, SavedRun, StackItem, State, Tables};
use willetcoffer::{Suggestion, Term, Type, Value};

fn uri(text: &str) -> Term {
    Term::uri(text).unwrap()
}

fn integer(number: i64) -> Term {
    Term::integer(number).unwrap()
}

fn refusal(card: &Card) -> u32 {
    card.load(&mut Tables::new()).map_or_else(Refusal::number, |_| 0)
}

fn with_script(script: &[u8]) -> Card {
    Card { script: script.to_vec(), ..Card::default() }
}

/// Document 01's table of refusals, 2 to 9.
#[test]
fn refusals_of_a_load() {
    let three = Card::new(&[integer(3)], &[], success());
    assert_eq!(refusal(&Card { terms: vec![0x16], ..three.clone() }), 2);
    assert_eq!(refusal(&Card { terms: three.terms.repeat(2), ..three.clone() }), 3);
    let named = Card::new(&[], &[(uri("p:name"), Datatype::String)], success());
    let mut datatype_6 = named.clone();
    *datatype_6.schema.last_mut().unwrap() = 6;
    assert_eq!(refusal(&datatype_6), 4);
    assert_eq!(refusal(&Card { schema: named.schema.repeat(2), ..named }), 5);
    assert_eq!(refusal(&with_script(&[])), 6);
    assert_eq!(refusal(&with_script(&[0x72, 0x31, 0, 0x71])), 7);
    let regex_on_an_integer = once(&[], filter(regex("a", con(0))), success());
    assert_eq!(refusal(&Card::new(&[integer(3)], &[], regex_on_an_integer)), 8);
    assert_eq!(refusal(&Card::new(&[], &[], once(&[(0, None)], empty(), success()))), 9);
    assert_eq!(refusal(&three), 0);
}

/// What does not fit its record is refused, never read as something else.
#[test]
fn records_that_do_not_fit() {
    let long = regex("a pattern of more than sixteen bytes", con(0));
    let text = Term::string("a").unwrap();
    assert_eq!(refusal(&Card::new(&[text], &[], once(&[], filter(long), success()))), 6);
    let range = lang_matches("en-and-more", con(0));
    assert_eq!(refusal(&Card::new(&[text], &[], once(&[], filter(range), success()))), 6);
    let five: Vec<(u8, Option<Type>)> = (0..5).map(|v| (v, None)).collect();
    assert_eq!(refusal(&Card::new(&[], &[], once(&five, empty(), success()))), 6);
    assert_eq!(refusal(&Card::new(&[], &[(integer(3), Datatype::Integer)], success())), 4);
}

/// The yard, by its number 0, with p:speed over decimals: from the yard, each thing with a speed; then once the yard itself.
fn yard() -> Card {
    let open = [(0, None), (1, None)];
    let speeds = each(&open, pattern([con(0), var(0), con(1), var(1)]), success());
    let own = once(&[(2, Some(Type::Data(Datatype::Decimal)))], pattern([con(0), con(0), con(1), var(2)]), success());
    let script = from_named(con(0), sequence(speeds, own));
    Card::new(&[uri("u:yard")], &[(uri("p:speed"), Datatype::Decimal)], script)
}

fn speed(subject: &str, number: i64) -> Vec<u8> {
    triple(&uri(subject), &uri("p:speed"), &integer(number)).unwrap()
}

#[test]
fn refusals_of_run_and_page() {
    let card = yard();
    let mut tables = Tables::new();
    let mut saved = card.load(&mut tables).unwrap();
    let before = (tables.clone(), saved.clone());
    let other = Card::new(&[integer(3)], &[], success());
    assert_eq!(other.run(&tables, &mut saved, 1, 0), Err(Refusal::Unsound));
    assert_eq!(card.run(&tables, &mut saved, BUDGET_LIMIT + 1, 0), Err(Refusal::RunCall));
    assert_eq!(card.run(&tables, &mut saved, 1, SECONDS_AFTER + 1), Err(Refusal::RunCall));
    assert_eq!(card.run(&tables, &mut saved, 1, -SECONDS_BEFORE - 1), Err(Refusal::RunCall));
    assert_eq!(card.page(&mut tables, &mut saved, 2u16, &[]), Err(Refusal::PageGraph));
    assert_eq!(card.page(&mut tables, &mut saved, 0u16, &[0x81]), Err(Refusal::Page));
    let long = speed("u:loco", 60).repeat(PAGE_LIMIT / record_width(0x83).unwrap() + 1);
    assert_eq!(card.page(&mut tables, &mut saved, 0u16, &long), Err(Refusal::Page));
    assert_eq!((&tables, &saved), (&before.0, &before.1));
    let graphs: Vec<Term> = (0..=GRAPH_LIMIT).map(|n| uri(&format!("u:{n}"))).collect();
    let many = Card::new(&graphs, &[], success());
    let mut saved = many.load(&mut tables).unwrap();
    for graph in 0..GRAPH_LIMIT as u64 {
        assert_eq!(many.page(&mut tables, &mut saved, graph, &[]), Ok(PageReport { skipped: 0 }));
    }
    assert_eq!(many.page(&mut tables, &mut saved, GRAPH_LIMIT as u64, &[]), Err(Refusal::Room));
}

#[test]
fn every_length_counts() {
    let card = yard();
    for length in [0, TOTAL_REPORT_WIDTH - 1, TOTAL_REPORT_WIDTH + 1] {
        let mut report = vec![9; length];
        assert_eq!((raw::total(&card, &mut report), report), (1, vec![9; length]));
    }
    for length in [0, SUGGEST_REPORT_WIDTH - 1, SUGGEST_REPORT_WIDTH + 1] {
        let mut report = vec![9; length];
        assert_eq!((raw::suggest(&card, &mut report), report), (1, vec![9; length]));
    }
    let widths = [RANKS_WIDTH, TERM_TABLE_WIDTH, QUAD_TABLE_WIDTH, SAVED_WIDTH, RUN_REPORT_WIDTH, PAGE_REPORT_WIDTH];
    let load = |[ranks, terms, quads, saved, ..]: &mut [Vec<u8>; 6]| {
        raw::load(&card, TablesMut { ranks, terms, quads }, saved)
    };
    let mut good = widths.map(|width| vec![0; width]);
    good[0] = BUILT_IN.to_vec();
    assert_eq!(load(&mut good), 0);
    for place in 0..6 {
        for length in [0, widths[place] - 1, widths[place] + 1] {
            let mut lent = good.clone();
            lent[place].resize(length, 0);
            let before = lent.clone();
            if place < 4 {
                assert_eq!(load(&mut lent), 1);
            }
            let [ranks, terms, quads, saved, run_report, page_report] = &mut lent;
            if place < 5 {
                assert_eq!(raw::run(&card, TablesRef { ranks, terms, quads }, saved, 1, 0, run_report), 1);
            }
            if place != 4 {
                assert_eq!(raw::page(&card, TablesMut { ranks, terms, quads }, saved, 0, &[], page_report), 1);
            }
            assert_eq!(lent, before);
        }
    }
}

/// A script with no each block: its total is told before the load, and is what its runs add up to, however they are cut.
#[test]
fn the_total() {
    let name = once(&[(0, None)], pattern([con(0), con(0), con(1), var(0)]), success());
    let script = from_named(con(0), sequence(name, success()));
    let card = Card::new(&[uri("u:yard")], &[(uri("p:speed"), Datatype::Decimal)], script);
    assert_eq!(card.total(), Ok(Some(5)));
    for budget in [1, 2, BUDGET_LIMIT] {
        let mut tables = Tables::new();
        let mut saved = card.load(&mut tables).unwrap();
        let mut steps = 0;
        for page in [vec![], speed("u:yard", 5), vec![]] {
            while let Ok(RunReport { steps: 1.., state }) =
                card.run(&tables, &mut saved, budget, 0).inspect(|r| steps += r.steps)
            {
                assert_eq!(state == State::Ended, steps == 5);
            }
            assert_eq!(card.page(&mut tables, &mut saved, 0u16, &page), Ok(PageReport { skipped: 0 }));
        }
        assert_eq!(steps, 5);
    }
    assert_eq!(yard().total(), Ok(None));
    let untyped = Card::new(&[], &[], once(&[(0, None)], empty(), success()));
    assert_eq!((refusal(&untyped), untyped.total()), (9, Ok(Some(2))));
    let refused = |card: Card| card.total().unwrap_err().number();
    let three = Card::new(&[integer(3)], &[], success());
    assert_eq!(refused(Card { terms: vec![0x16], ..three.clone() }), 2);
    assert_eq!(refused(Card { terms: three.terms.repeat(2), ..three }), 3);
    assert_eq!(refused(with_script(&[])), 6);
    assert_eq!(refused(with_script(&[0x72, 0x31, 0, 0x71])), 7);
}

/// Document 02's example, with its four variables in each order of numbers that counts, and the roster's other rows with 9.
#[test]
fn suggestions() {
    let written = |variable, written_type| Ok(Suggestion::Written { variable, written_type });
    let (decimal, any) = (Datatype::Decimal, Datatype::AnyUri);
    let card = |query, pairs: &[(u8, Option<Type>)]| {
        Card::new(&[], &[(uri("p:speed"), decimal)], once(pairs, query, success()))
    };
    let of = |p, o| pattern([var(0), var(1), p, var(o)]);
    let open = [0, 1, 2, 3].map(|v| (v, None));
    let speed = |p, o| card(both(of(var(p), o), of(con(0), o)), &open);
    assert_eq!(speed(2, 3).suggest(), written(2, Type::Range(decimal)));
    assert_eq!(speed(3, 2).suggest(), written(2, Type::Data(decimal)));
    assert_eq!(card(of(var(2), 3), &open).suggest(), written(2, Type::Range(any)));
    let equation = filter(equal(var(0), var(1)));
    assert_eq!(card(equation.clone(), &open[..2]).suggest(), written(0, Type::Data(any)));
    assert_eq!(card(equation, &open[..3]).suggest(), Ok(Suggestion::None));
    assert_eq!(card(of(con(0), 2), &open[..3]).suggest(), Ok(Suggestion::Accepted));
    assert_eq!(card(filter(regex("a", var(0))), &[(0, Some(Type::Data(any)))]).suggest(), Err(Refusal::NoTyping));
}

/// Refused as the load is, with 2 to 8, and nothing is written.
#[test]
fn refusals_of_a_suggestion() {
    let three = Card::new(&[integer(3)], &[(uri("p:name"), Datatype::String)], success());
    let regex_on_an_integer = once(&[], filter(regex("a", con(0))), success()).into_bytes();
    let mut datatype_6 = three.schema.clone();
    *datatype_6.last_mut().unwrap() = 6;
    let rows = [
        (2, Card { terms: vec![0x16], ..three.clone() }),
        (3, Card { terms: three.terms.repeat(2), ..three.clone() }),
        (4, Card { schema: datatype_6, ..three.clone() }),
        (5, Card { schema: three.schema.repeat(2), ..three.clone() }),
        (6, Card { script: Vec::new(), ..three.clone() }),
        (7, Card { script: vec![0x72, 0x31, 0, 0x71], ..three.clone() }),
        (8, Card { script: regex_on_an_integer, ..three }),
    ];
    for (number, card) in rows {
        let mut report = [9; SUGGEST_REPORT_WIDTH];
        assert_eq!((raw::suggest(&card, &mut report), report), (number, [9; SUGGEST_REPORT_WIDTH]));
        assert_eq!(refusal(&card), number);
    }
}

#[test]
fn from_load_to_end() {
    let card = yard();
    let mut tables = Tables::new();
    let mut saved = card.load(&mut tables).unwrap();
    let types: Vec<String> = saved.types().map(|(v, t)| format!("{v} {t}")).collect();
    assert_eq!(types, ["0 xsd:anyURI", "1 xsd:decimal", "2 xsd:decimal"]);
    assert_eq!(saved.stack().collect::<Vec<_>>(), [StackItem { offset: 0, last: None }]);
    assert_eq!(tables.terms().collect::<Vec<_>>(), [uri("u:yard"), uri("p:speed")]);
    let report = card.run(&tables, &mut saved, 9, 0).unwrap();
    assert_eq!(report, RunReport { steps: 0, state: State::Wanted(0) });

    let name = triple(&uri("u:loco"), &uri("p:name"), &Term::string("Mallard").unwrap()).unwrap();
    let page = [speed("u:loco", 126), name].concat();
    assert_eq!(
        records(&page).map(<[u8]>::len).collect::<Vec<_>>(),
        [0x83, 0x82].map(|kind| record_width(kind).unwrap())
    );
    assert_eq!(card.page(&mut tables, &mut saved, 0u16, &page), Ok(PageReport { skipped: 1 }));
    assert_eq!(saved.fetched().collect::<Vec<_>>(), [0]);
    let quads: Vec<Quad> = tables.quads(&saved).collect();
    assert_eq!(quads, [Quad { graph: 0, subject: 2, property: 1, object: 3 }]);
    assert_eq!((tables.number_of(&uri("u:loco")), tables.number_of(&uri("u:nobody"))), (Some(2), None));

    // From named and sequence, then the each block's answer: it stays below its script, with the tuple it used.
    let report = card.run(&tables, &mut saved, 3, 0).unwrap();
    assert_eq!(report, RunReport { steps: 3, state: State::Spent });
    let stack: Vec<StackItem> = saved.stack().collect();
    assert_eq!(stack.len(), 3);
    assert_eq!(stack[1].last, Some([2, 3, 0, 0]));
    assert_eq!((saved.binding(0), saved.binding(1), saved.binding(2)), (Some(2), Some(3), None));
    assert_eq!(tables.term(3).as_ref().map(Term::value), Some(Value::Integer(126)));
    let report = card.run(&tables, &mut saved, 9, 0).unwrap();
    assert_eq!(report, RunReport { steps: 2, state: State::Waiting });

    // Stored and handed in again, the run goes on.
    let mut saved = SavedRun::from_bytes(*saved.as_bytes());
    let stored = |bytes: &[u8]| bytes.to_vec().into_boxed_slice();
    let (terms, quads) = (stored(tables.term_bytes()), stored(tables.quad_bytes()));
    let mut tables = Tables::from_bytes(terms.try_into().unwrap(), quads.try_into().unwrap());
    assert_eq!(card.page(&mut tables, &mut saved, 0u16, &speed("u:yard", 5)), Ok(PageReport { skipped: 0 }));
    let report = card.run(&tables, &mut saved, 9, 0).unwrap();
    assert_eq!(report, RunReport { steps: 2, state: State::Ended });
    assert_eq!((saved.stack().count(), saved.quads()), (0, 1));
    assert_eq!(saved.variable_type(16), None);
    assert_eq!(saved.binding(255), None);
}

/// Two yards with the speeds of two locomotives. Terms: 0 and 1 the yards, 2 and 3 the locomotives, 4 and 5 the integers 1 and 2; then
/// p:speed 6.
#[test]
fn one_order_for_quads() {
    let listed = [uri("u:north"), uri("u:south"), uri("u:a"), uri("u:b"), integer(1), integer(2)];
    let card = Card::new(&listed, &[(uri("p:speed"), Datatype::Decimal)], success());
    let filled = |pages: [(u16, Vec<u8>); 2]| {
        let mut tables = Tables::new();
        let mut saved = card.load(&mut tables).unwrap();
        for (graph, page) in pages {
            assert_eq!(card.page(&mut tables, &mut saved, graph, &page), Ok(PageReport { skipped: 0 }));
        }
        (tables, saved)
    };
    let [a_1, a_2, b_1, b_2] = [("u:a", 1), ("u:a", 2), ("u:b", 1), ("u:b", 2)].map(|(loco, n)| speed(loco, n));
    let backwards = [(1, [&b_2[..], &a_1].concat()), (0, [&b_1[..], &a_2, &b_1].concat())];
    let (mut tables, mut saved) = filled(backwards);
    let quads: Vec<[u16; 4]> = tables.quads(&saved).map(|q| [q.graph, q.subject, q.property, q.object]).collect();
    assert_eq!(quads, [[0, 2, 6, 5], [0, 3, 6, 4], [1, 2, 6, 4], [1, 3, 6, 5]]);
    assert!(tables.quads(&saved).is_sorted());

    // Filled alike, the same bytes; and a page taken twice changes nothing.
    let (forwards, _) = filled([(0, [&a_2[..], &b_1].concat()), (1, [&a_1[..], &b_2].concat())]);
    assert_eq!(tables, forwards);
    assert_eq!(card.page(&mut tables, &mut saved, 0u16, &[b_1, a_2].concat()), Ok(PageReport { skipped: 0 }));
    assert_eq!(tables, forwards);

    // Another order is unsound, though it is the same set of quads.
    let mut bytes = *tables.quad_bytes();
    bytes[..2 * QUAD_WIDTH].rotate_left(QUAD_WIDTH);
    let mut turned = Tables::from_bytes(Box::new(*tables.term_bytes()), Box::new(bytes));
    assert_eq!(card.run(&tables, &mut saved, 0, 0), Ok(RunReport { steps: 0, state: State::Spent }));
    assert_eq!(card.run(&turned, &mut saved, 0, 0), Err(Refusal::Unsound));
    assert_eq!(card.page(&mut turned, &mut saved, 0u16, &[]), Err(Refusal::Unsound));
}

/// Ranks of 95 bytes that are no list of ranks: one twice and another missing, one of 95, one of more, counted from 1, all alike.
fn bad_ranks() -> Vec<[u8; RANKS_WIDTH]> {
    let with = |place: usize, rank: u8| {
        let mut ranks = BUILT_IN;
        ranks[place] = rank;
        ranks
    };
    let twice = [with(0, BUILT_IN[94]), with(94, BUILT_IN[0]), with(33, BUILT_IN[34])];
    let more = [with(0, 95), with(94, 95), with(50, 127), with(50, BUILT_IN[50] + 128), with(94, 255)];
    [&twice[..], &more, &[BUILT_IN.map(|rank| rank + 1), [0; RANKS_WIDTH]]].concat()
}

/// 21 straight after 1, and before all else.
#[test]
fn ranks_that_are_none() {
    let card = yard();
    let mut good = Tables::new();
    let mut saved = card.load(&mut good).unwrap();
    for ranks in bad_ranks() {
        let mut tables = good.clone().with_ranks(ranks);
        let before = (tables.clone(), saved.clone());
        assert_eq!(card.load(&mut tables), Err(Refusal::Ranks));
        assert_eq!(card.run(&tables, &mut saved, 1, 0), Err(Refusal::Ranks));
        assert_eq!(card.page(&mut tables, &mut saved, 0u16, &[]), Err(Refusal::Ranks));
        // Beside what would be refused otherwise: 2, 10, 11, 12 and 13.
        assert_eq!(Card { terms: vec![0x16], ..card.clone() }.load(&mut tables), Err(Refusal::Ranks));
        let other = Card::new(&[integer(3)], &[], success());
        assert_eq!(other.run(&tables, &mut saved, 1, 0), Err(Refusal::Ranks));
        assert_eq!(card.run(&tables, &mut saved, BUDGET_LIMIT + 1, 0), Err(Refusal::Ranks));
        assert_eq!(card.page(&mut tables, &mut saved, 2u16, &[]), Err(Refusal::Ranks));
        assert_eq!(card.page(&mut tables, &mut saved, 0u16, &[0x81]), Err(Refusal::Ranks));
        assert_eq!((&tables, &saved), (&before.0, &before.1));
        // Beside another length: 1.
        let mut lent = [TERM_TABLE_WIDTH, QUAD_TABLE_WIDTH, SAVED_WIDTH].map(|width| vec![0; width]);
        lent[1].pop();
        let [terms, quads, saved] = &mut lent;
        let (ranks, report) = (&ranks[..], &mut [0; RUN_REPORT_WIDTH]);
        assert_eq!(raw::load(&card, TablesMut { ranks, terms, quads }, saved), 1);
        assert_eq!(raw::run(&card, TablesRef { ranks, terms, quads }, saved, 1, 0, report), 1);
        let (ranks, report) = (ranks, &mut [0; PAGE_REPORT_WIDTH]);
        assert_eq!(raw::page(&card, TablesMut { ranks, terms, quads }, saved, 0, &[], report), 1);
    }
}

/// The built-in ranks are each rank once, and their order is document 01's.
#[test]
fn the_built_in_ranks() {
    let mut sorted = BUILT_IN;
    sorted.sort_unstable();
    assert_eq!(sorted, std::array::from_fn(|rank| rank as u8));
    let letters: Vec<u8> = (b'A'..=b'Z').flat_map(|letter| [letter, letter.to_ascii_lowercase()]).collect();
    let others = (0x21..=0x7e).filter(|byte: &u8| byte.is_ascii_punctuation());
    let order: Vec<u8> = [b' '].into_iter().chain(b'0'..=b'9').chain(letters).chain(others).collect();
    assert_eq!(order, BUILT_IN_ORDER);
    for pair in order.windows(2) {
        let [low, high] = [pair[0], pair[1]].map(|byte| BUILT_IN[usize::from(byte - 0x20)]);
        assert_eq!(low + 1, high);
    }
    assert_eq!(in_order(BUILT_IN_ORDER), Some(BUILT_IN));
    let mut twice = *BUILT_IN_ORDER;
    twice[5] = b'~';
    assert_eq!(in_order(&twice), None);
    twice[5] = 0x7f;
    assert_eq!(in_order(&twice), None);
}

/// Whether a term is less than another, by a block that waits unless it is.
fn is_less(a: Term, b: Term, ranks: [u8; RANKS_WIDTH]) -> bool {
    let card = Card::new(&[a, b], &[], once(&[], filter(less(con(0), con(1))), success()));
    let mut tables = Tables::new().with_ranks(ranks);
    let mut saved = card.load(&mut tables).unwrap();
    assert_eq!(tables.ranks(), &ranks);
    card.run(&tables, &mut saved, 9, 0).unwrap().state == State::Ended
}

/// The old order: what document 01 says of less on strings, by the ranks that are lent where a club has none.
#[test]
fn less_by_the_built_in_ranks() {
    let name = |tag: &str, text: &str| Term::tagged(tag, text).unwrap();
    let rising = [
        name("", ""),
        name("", " "),
        name("", "0"),
        name("", "9z"),
        name("", "A"),
        name("", "a"),
        name("en", "a"),
        name("eng", "a"),
        name("en-gb", "a"),
        name("", "aA"),
        name("", "B"),
        name("", "b"),
        name("", "z"),
        name("", "!"),
        name("", "~"),
    ];
    for (i, a) in rising.iter().enumerate() {
        for (j, b) in rising.iter().enumerate().filter(|(j, _)| *j != i) {
            assert_eq!(is_less(*a, *b, BUILT_IN), i < j, "{a} {b}");
        }
    }
}

/// A club's own order: bytes as they are, and the built-in ranks turned round, where the end of a text still comes first.
#[test]
fn less_by_other_ranks() {
    let name = |tag: &str, text: &str| Term::tagged(tag, text).unwrap();
    let (by_byte, turned) = (std::array::from_fn(|place| place as u8), BUILT_IN.map(|rank| 94 - rank));
    let rows = [
        // By the built-in ranks, by bytes, turned round.
        (name("", "a"), name("", "B"), [true, false, false]),
        (name("", "A"), name("", "a"), [true, true, false]),
        (name("", "z"), name("", "-"), [true, false, false]),
        (name("", "a"), name("", "ab"), [true, true, true]),
        (name("eng", "a"), name("en-gb", "a"), [true, false, false]),
        (name("de", "a"), name("en", "a"), [true, true, false]),
        (name("", "a"), name("z", "a"), [true, true, true]),
        (name("z", "a"), name("a", "b"), [true, true, false]),
    ];
    for (a, b, expected) in rows {
        for (ranks, expected) in [BUILT_IN, by_byte, turned].into_iter().zip(expected) {
            assert_eq!((is_less(a, b, ranks), is_less(b, a, ranks)), (expected, !expected), "{a} {b}");
        }
    }
    // URIs and numbers have no ranks.
    for ranks in [BUILT_IN, by_byte, turned] {
        assert!(is_less(uri("u:B"), uri("u:a"), ranks) && !is_less(uri("u:a"), uri("u:B"), ranks));
        assert!(is_less(integer(1), integer(2), ranks) && !is_less(integer(2), integer(1), ranks));
    }
}

#[test]
fn terms() {
    let good = [
        (uri("u:1"), "u:1"),
        (Term::tagged("en", "Mallard").unwrap(), "Mallard"),
        (integer(-3), "-3"),
        (Term::decimal(126_400_000).unwrap(), "126.4"),
        (Term::decimal(-500_000).unwrap(), "-0.5"),
        (Term::decimal(65_000_000).unwrap(), "65"),
        (Term::date_time(0).unwrap(), "second 0"),
    ];
    for (term, text) in good {
        assert_eq!(term.to_string(), text);
        assert_eq!(Term::from_slot(term.slot()), Some(term));
        let mut dirty = *term.slot();
        dirty[SLOT_WIDTH - 1] = 1;
        assert_eq!(Term::from_slot(&dirty), None);
    }
    let long = "a".repeat(TEXT_WIDTH + 1);
    let bad = [
        Term::uri(""),
        Term::uri("a b"),
        Term::uri(&long),
        Term::string(&long),
        Term::string("ä"),
        Term::tagged("EN", "a"),
        Term::tagged("abcdefghi", "a"),
        Term::integer(1_000_000_000_001),
        Term::decimal(-1_000_000_000_000_000_001),
        Term::date_time(SECONDS_AFTER + 1),
    ];
    assert!(bad.iter().all(|term| term.as_ref().is_err_and(|error| !error.to_string().is_empty())));
}
