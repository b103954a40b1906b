//! The C header and the Rust library against the definitions: every number of `include/willetcoffer.h` and of
//! `src/limits.rs` is one of `crates/definitions`, and each of these is there; the declarations are those of the exports.

mod numbers;
mod signatures;

use numbers::{antt, header, rust, snake, Numbers};
use signatures::{exported, in_c, in_rust};
use std::collections::{BTreeMap, BTreeSet};
use std::path::Path;
use willetcoffer::limits::SUGGEST_REPORT_WIDTH;
use willetcoffer::{Datatype, Refusal, State, Suggestion, Type};

fn read(path: &str) -> String {
    let path = Path::new(env!("CARGO_MANIFEST_DIR")).join("../..").join(path);
    std::fs::read_to_string(&path).unwrap_or_else(|error| panic!("{}: {error}", path.display()))
}

const HEADER: &str = "include/willetcoffer.h";
const DEFINITIONS: &str = "crates/definitions/specs";

/// The numbers of these names of the header, without their prefix.
fn group(prefix: &str) -> Numbers {
    let all = header(&read(HEADER)).into_iter();
    all.filter_map(|(name, number)| Some((name.strip_prefix(prefix)?.to_string(), number))).collect()
}

/// The widths, limits and offsets of the definitions.
fn definitions() -> Numbers {
    antt(&[read(&format!("{DEFINITIONS}/Limits.antt")), read(&format!("{DEFINITIONS}/Exports.antt"))].join("\n\n"))
}

#[test]
fn widths_limits_and_offsets_of_the_header() {
    let groups = ["TYPE_", "STATE_", "SUGGESTION_", "REFUSED_"];
    let mut numbers = header(&read(HEADER));
    numbers.retain(|name, _| !groups.iter().any(|group| name.starts_with(group)));
    let defined = definitions();
    assert!(defined.len() >= 30, "the definitions were read: {defined:?}");
    assert_eq!(numbers, defined);
}

#[test]
fn widths_limits_and_offsets_of_the_library() {
    assert_eq!(rust(&read("host/willetcoffer/src/limits.rs")), definitions());
}

/// The refusals' names in the shared data, with their numbers.
const REFUSALS: [(&str, i128); 20] = [
    ("WRONG_LENGTH", 1),
    ("BAD_TERM", 2),
    ("TERM_TWICE", 3),
    ("BAD_ENTRY", 4),
    ("PROPERTY_TWICE", 5),
    ("BAD_SCRIPT", 6),
    ("OUT_OF_SCOPE", 7),
    ("NO_TYPING", 8),
    ("NO_GREATEST", 9),
    ("UNSOUND", 10),
    ("BAD_RUN", 11),
    ("NO_GRAPH", 12),
    ("BAD_PAGE", 13),
    ("NO_ROOM", 14),
    ("BAD_NUMBER_TEXT", 16),
    ("NO_SUCH_NUMBER", 17),
    ("TOO_MANY_ENTRIES", 19),
    ("BAD_RANKS", 21),
    ("NOT_FETCHED", 22),
    ("SHORT_BUFFER", 23),
];

/// The refusals of the shared data: the variants of an enum, by their discriminants.
fn variants(text: &str) -> Numbers {
    let (_, body) = text.split_once("pub enum Refusal {").expect("the refusals");
    let lines = body.split('}').next().unwrap_or_default().lines();
    let variant = lines.filter_map(|line| line.trim().strip_suffix(',')?.split_once(" = "));
    variant.map(|(name, number)| (snake(name), number.parse().expect("a number"))).collect()
}

#[test]
fn the_definitions_agree_with_the_shared_data() {
    let defined = definitions();
    let data = read("crates/definitions/src/lib.rt");
    let mut shared = rust(&data);
    assert!(shared.len() >= 50, "the shared data was read: {shared:?}");
    let refusals: Numbers = REFUSALS.map(|(name, number)| (name.to_string(), number)).into();
    assert_eq!(variants(&data), refusals);
    let named = equations(&read(&format!("{DEFINITIONS}/Numbers.antt")).replace("Refusals.", ""), "refusal_number");
    assert_eq!(named, refusals);
    // what the code alone has: the places of the stack
    assert_eq!(shared.remove("ITEM_LIMIT"), defined.get("DEPTH_LIMIT").copied());
    for (name, number) in shared {
        assert_eq!(defined.get(&name), Some(&number), "{name}");
    }
}

/// The equations `name pattern = number` of a definition; the pattern is a word, or a word and its arguments in brackets.
fn equations(text: &str, name: &str) -> Numbers {
    let of_name = text.lines().filter_map(|line| line.strip_prefix(name)?.strip_prefix(' ')?.split_once(" = "));
    let number = |text: &str| text.split([' ', '+']).next().and_then(|word| word.parse().ok());
    let head = |pattern: &str| pattern.trim_matches(['(', ')']).split(' ').next().unwrap_or_default().to_string();
    of_name.filter_map(|(pattern, value)| Some((snake(&head(pattern)), number(value)?))).collect()
}

#[test]
fn states() {
    let defined = equations(&read(&format!("{DEFINITIONS}/Numbers.antt")), "state_number");
    assert_eq!(defined.len(), 4, "{defined:?}");
    assert_eq!(group("STATE_"), defined);
    for state in [State::Ended, State::Wanted(7), State::Waiting, State::Spent] {
        let name = format!("{state:?}").replace("(7)", "").to_uppercase();
        assert_eq!(defined[&name], i128::from(state.number()));
        let graph = if let State::Wanted(graph) = state { graph } else { 0 };
        assert_eq!(State::from_number(state.number(), graph), Some(state));
    }
}

#[test]
fn suggestions() {
    let written = Suggestion::Written { variable: 15, written_type: Type::Range(Datatype::Integer) };
    let named = [("ACCEPTED", Suggestion::Accepted), ("WRITTEN", written), ("NONE", Suggestion::None)];
    let numbers = named.map(|(name, suggestion)| (name.to_string(), i128::from(suggestion.number())));
    assert_eq!(group("SUGGESTION_"), Numbers::from(numbers));
    let reports = [[0, 0, 0, 0], [1, 15, 13, 0], [2, 0, 0, 0]];
    assert_eq!(reports.map(|report| Suggestion::from_bytes(&report)), named.map(|(_, suggestion)| Some(suggestion)));
    // Bytes that no call writes: another number, variable, code or last byte, something where nothing is named, another length.
    let others = [
        [3, 0, 0, 0],
        [1, 16, 1, 0],
        [1, 0, 0, 0],
        [1, 0, 8, 0],
        [1, 0, 14, 0],
        [1, 0, 1, 1],
        [0, 1, 0, 0],
        [2, 0, 1, 0],
    ];
    assert_eq!(others.map(|report| Suggestion::from_bytes(&report)), [None; 8]);
    assert_eq!(
        [SUGGEST_REPORT_WIDTH - 1, SUGGEST_REPORT_WIDTH + 1].map(|n| Suggestion::from_bytes(&vec![0; n])),
        [None; 2]
    );
}

#[test]
fn codes_of_types() {
    let text = read(&format!("{DEFINITIONS}/Types.antt"));
    let mut defined = equations(&text, "datatype_code");
    assert_eq!(defined.len(), 5, "{defined:?}");
    let step = equations(&text, "type_code")["RANGE"];
    let ranges: Vec<_> = defined.iter().map(|(name, code)| (format!("RANGE_{name}"), code + step)).collect();
    defined.extend(ranges);
    assert_eq!(group("TYPE_"), defined);
    let name = |d: Datatype| snake(d.to_string().trim_start_matches("xsd:"));
    for t in Type::all() {
        let name = match t {
            Type::Data(d) => name(d),
            Type::Range(d) => format!("RANGE_{}", name(d)),
        };
        assert_eq!(defined[&name], i128::from(t.code()));
    }
}

/// Words before a refusal's name or number; its number stands too where a record's number is written.
const REFUSING: [&str; 7] = ["require", "given", "refused", "refused_run", "refused_page", "Err", "refused_publish"];

/// The definitions of the calls.
fn calls() -> String {
    [read(&format!("{DEFINITIONS}/Calls.antt")), read(&format!("{DEFINITIONS}/Exports.antt"))].join("\n\n")
}

/// The refusals' numbers among some words.
fn refusals_in(words: &[String]) -> impl Iterator<Item = i128> + '_ {
    let named = words.windows(2).filter(|pair| REFUSING.contains(&&*pair[0])).map(|pair| &pair[1]);
    let written = words.windows(3).filter(|three| three[0] == "number" && three[1] == "=").map(|three| &three[2]);
    let by_name = |word: &str| REFUSALS.iter().find(|(name, _)| *name == snake(word)).map(|(_, number)| *number);
    named.chain(written).filter_map(move |word| word.parse().ok().or_else(|| by_name(word)))
}

#[test]
fn numbers_of_refusals() {
    let header = group("REFUSED_");
    let numbers: BTreeSet<i128> = header.values().copied().collect();
    let definitions = equations_by_name(&calls());
    let defined: BTreeSet<i128> = definitions.values().flat_map(|words| refusals_in(words)).collect();
    assert_eq!((numbers.len(), &numbers), (header.len(), &defined));
    let library = Refusal::all().map(|refusal| (snake(&format!("{refusal:?}")), i128::from(refusal.number())));
    assert_eq!(library.collect::<Numbers>(), header);
    assert!(Refusal::all().all(|refusal| Refusal::from_number(refusal.number()) == refusal));
}

/// What a definition says, by its name: the words of its equations.
fn equations_by_name(text: &str) -> BTreeMap<String, Vec<String>> {
    let mut all = BTreeMap::new();
    for paragraph in text.split("\n\n") {
        let lines = paragraph.lines().filter(|line| !line.trim_start().starts_with("--"));
        let words: Vec<&str> =
            lines.flat_map(|line| line.split([' ', '(', ')', ';'])).filter(|word| !word.is_empty()).collect();
        if let ["abbrev" | "unfoldable", "pub", name, rest @ ..] = &words[..] {
            all.insert(name.to_string(), rest.iter().map(|word| word.to_string()).collect());
        }
    }
    all
}

/// The refusals that a call's definition leads to. That the records load is asked by `sound_in` too, which gives no number of
/// its own.
fn refusals_from(call: &str, definitions: &BTreeMap<String, Vec<String>>) -> BTreeSet<i128> {
    let mut numbers = BTreeSet::new();
    let (mut seen, mut next) = (BTreeSet::new(), vec![format!("{call}_export")]);
    while let Some(name) = next.pop() {
        let Some(words) = definitions.get(&name) else { continue };
        if name == "sound_in" || !seen.insert(name) {
            continue;
        }
        numbers.extend(refusals_in(words));
        next.extend(words.iter().cloned());
    }
    numbers
}

/// Each call's comment in the header names its refusals: those that its definition leads to.
#[test]
fn refusals_of_each_call() {
    let text = read(HEADER);
    let parts: Vec<&str> = text.split("\nuint32_t willetcoffer_").collect();
    let definitions = equations_by_name(&calls());
    for pair in parts.windows(2) {
        let (_, list) = pair[0].rsplit_once("Refusals: ").expect("a comment with the refusals");
        let list = list.split(", in this order").next().unwrap_or_default();
        let ends = |part: &str| {
            let (first, last) = part.split_once(" to ").unwrap_or((part, part));
            first.parse().unwrap()..=last.parse().unwrap()
        };
        let named: BTreeSet<i128> = list.split(", ").flat_map(ends).collect();
        let call = pair[1].split('(').next().unwrap_or_default();
        assert_eq!(named, refusals_from(call, &definitions), "{call}");
    }
    assert!(parts.len() > 5);
}

/// The table of the saved run in the header's comment: each row begins where the last one ended.
#[test]
fn the_layout_in_the_header() {
    let text = read(HEADER);
    let rows = text.lines().filter_map(|line| {
        let mut words = line.strip_prefix(" *")?.split_whitespace();
        Some((words.next()?.parse::<i128>().ok()?, words.next()?.parse::<i128>().ok()?))
    });
    let mut end = 0;
    let mut starts = Vec::new();
    for (at, bytes) in rows {
        assert_eq!(at, end);
        starts.push(at);
        end += bytes;
    }
    let defined = definitions();
    assert_eq!(end, defined["SAVED_WIDTH"]);
    for name in ["TYPES", "BOUND", "BINDINGS", "FETCHED", "ITEMS"] {
        assert!(starts.contains(&defined[&format!("{name}_OFFSET")]), "{name}");
    }
}

/// The header's built-in ranks are the library's.
#[test]
fn built_in_ranks() {
    let text = read(HEADER);
    let (_, list) = text.split_once("willetcoffer_built_in_ranks[WILLETCOFFER_RANKS_WIDTH] = {").expect("the ranks");
    let list = list.split('}').next().unwrap_or_default();
    // Without its comments.
    let numbers = list.split("/*").map(|part| part.split_once("*/").map_or(part, |(_, after)| after));
    let ranks: Vec<u8> = numbers.flat_map(|part| part.split(',')).filter_map(|word| word.trim().parse().ok()).collect();
    assert_eq!(ranks, willetcoffer::ranks::BUILT_IN);
}

#[test]
fn declarations() {
    let exports = exported(&read("crates/exports_c/src/lib.rt"));
    assert!(exports.len() >= 5, "the exports were read: {exports:?}");
    assert_eq!(in_c(&read(HEADER)), exports);
    assert_eq!(in_rust(&read("host/willetcoffer/src/raw.rs")), exports);
}

/// The tests above would see a number or a declaration that has changed, is missing or is one too many.
#[test]
fn a_slip_is_seen() {
    let text = read(HEADER);
    let changed = text.replace("SAVED_WIDTH 486", "SAVED_WIDTH 487");
    assert_eq!(header(&changed)["SAVED_WIDTH"], 487);
    let missing = text.replace("#define WILLETCOFFER_ITEM_WIDTH 12\n", "");
    assert!(!header(&missing).contains_key("ITEM_WIDTH"));
    let more = text.replace("#define WILLETCOFFER_ITEM_WIDTH 12\n", "#define WILLETCOFFER_ITEMS 12\n");
    assert!(header(&more).contains_key("ITEMS"));
    let unsigned = text.replace("int64_t now", "uint64_t now");
    assert_ne!(in_c(&unsigned), in_c(&text));
    let constant = text.replacen("    uint8_t *saved", "    const uint8_t *saved", 1);
    assert_ne!(in_c(&constant), in_c(&text));
}
