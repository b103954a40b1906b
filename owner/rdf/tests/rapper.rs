//! The same files by rapper and by these tools, triple by triple.

use rdf::{page, read, Format};
use std::collections::HashMap;
use std::path::{Path, PathBuf};
use std::process::Command;
use terms::{plain, Prefixes};
use willetcoffer::{Term, Value};

const BASE: &str = "http://club.example/yard";

fn files() -> Vec<PathBuf> {
    let folder = Path::new(env!("CARGO_MANIFEST_DIR")).join("tests/data");
    let mut files: Vec<PathBuf> =
        std::fs::read_dir(folder).expect("the test data").map(|entry| entry.expect("an entry").path()).collect();
    files.sort();
    files
}

/// rapper's lines, without their points.
fn by_rapper(path: &Path, format: Format) -> Vec<String> {
    let output =
        Command::new("rapper").args(["-q", "-i", format.name(), "-o", "ntriples"]).arg(path).arg(BASE).output();
    let output = output.expect("rapper runs (Debian: raptor2-utils)");
    let text = String::from_utf8(output.stdout).expect("N-Triples");
    text.lines().map(|line| unescaped(line.trim_end().trim_end_matches('.').trim_end())).collect()
}

/// A line with its `\uXXXX` replaced.
fn unescaped(line: &str) -> String {
    let mut parts = line.split("\\u");
    let mut out = parts.next().unwrap_or_default().to_owned();
    for part in parts {
        let code = u32::from_str_radix(&part[..4], 16).expect("four digits");
        out.push(char::from_u32(code).expect("a character"));
        out.push_str(&part[4..]);
    }
    out
}

/// Lines with their blank nodes named by the order in which they are met.
fn renamed(lines: &[String]) -> Vec<String> {
    let mut names: HashMap<String, usize> = HashMap::new();
    let mut rename = |word: &str| match word.strip_prefix("_:") {
        Some(name) => {
            let next = names.len() + 1;
            format!("_:{}", names.entry(name.to_owned()).or_insert(next))
        }
        None => word.to_owned(),
    };
    lines.iter().map(|line| line.split(' ').map(&mut rename).collect::<Vec<_>>().join(" ")).collect()
}

/// What N-Triples has between the quotes and after them, read apart from the tools.
fn lexical(object: &str) -> Option<(&str, &str)> {
    let rest = object.strip_prefix('"')?;
    rest.rsplit_once('"')
}

/// Whether a record's object says what rapper's line says.
fn says_the_same(object: &Term, written: &str, prefixes: &Prefixes) -> bool {
    let lexical = lexical(written);
    match (object.value(), lexical) {
        (Value::Uri(text), None) => written == format!("<{}>", prefixes.full(text)) || written.starts_with("_:"),
        (Value::Uri(text), Some((written, _))) => written == prefixes.full(text),
        (Value::String { tag, text }, Some((written, after))) => {
            let after = after.strip_prefix('@').unwrap_or_default();
            written.replace("\\\"", "\"") == text && after.eq_ignore_ascii_case(tag)
        }
        (Value::Integer(value), Some((written, _))) => written.parse() == Ok(value),
        (Value::Decimal(value), Some((written, _))) => {
            written.parse().is_ok_and(|it: f64| (it * 1e6).round() == value as f64)
        }
        (Value::DateTime(_), Some((written, _))) => !written.ends_with('Z') || written == plain(object),
        _ => false,
    }
}

#[test]
fn triple_by_triple() {
    let mut prefixes = Prefixes::default();
    prefixes.add("p", "http://p.example/").expect("a prefix");
    prefixes.add("club", "http://club.example/").expect("a prefix");
    for path in files() {
        let format = Format::of_path(&path).expect("a known extension");
        let theirs = by_rapper(&path, format);
        let bytes = std::fs::read(&path).expect("a file");
        let document = read(&bytes, format, BASE).expect("a good file");
        let ours: Vec<String> = document.triples.iter().map(ToString::to_string).collect();
        assert!(!ours.is_empty(), "{}", path.display());
        assert_eq!(renamed(&ours), renamed(&theirs), "{}", path.display());

        let page = page(&document, BASE, &prefixes);
        assert_eq!(page.taken.len() + page.left_out.len(), theirs.len());
        let mut left_out = page.left_out.iter().map(|left| left.triple.to_string()).peekable();
        let mut taken = page.taken.iter();
        for (ours, theirs) in ours.iter().zip(&theirs) {
            if left_out.next_if_eq(ours).is_some() {
                continue;
            }
            let [subject, property, object] = taken.next().expect("a record for each other triple");
            let mut words = theirs.splitn(3, ' ');
            let (s, p, o) = (words.next().unwrap(), words.next().unwrap(), words.next().unwrap());
            assert!(s == format!("<{}>", prefixes.full(&plain(subject))) || s.starts_with("_:"), "{theirs}");
            assert_eq!(p, format!("<{}>", prefixes.full(&plain(property))));
            assert!(says_the_same(object, o, &prefixes), "{theirs}: {object:?}");
        }
    }
}
