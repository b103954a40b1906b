//! Every refusal and every limit that a script can meet, with its message: what is wrong, where, what was expected, what to do.
//!
//! The messages stand in `snapshots/`. A limit is met and not passed in `just_within`.

mod common;

use common::Folder;
use std::fmt::Write;
use willetcoffer::limits::TEXT_WIDTH;

const HEADER: &str =
    "prefix p: <http://p.example/>\nschema p:name xsd:string, p:speed xsd:decimal, p:addr xsd:integer\n";

/// What `willet check` says of each script, under its name; all of them are refused with this number.
fn messages(refusal: u32, scripts: &[(&str, String)]) -> String {
    let folder = Folder::new();
    let mut all = String::new();
    for (name, text) in scripts {
        folder.write("script.page", text);
        let said = folder.willet(&["check", "script.page"]);
        assert_eq!(said.code, Some(1), "{name}: {}{}", said.out, said.err);
        assert!(said.err.starts_with(&format!("error[{refusal}]: ")), "{name}: {}", said.err);
        let shown: Vec<String> = said.err.lines().map(shortened).collect();
        let _ = writeln!(all, "== {name}\n{}\n", shown.join("\n").trim_end());
    }
    all
}

/// A line that does not fill the page.
fn shortened(line: &str) -> String {
    match line.char_indices().nth(190) {
        Some((end, _)) => format!("{} ..", line[..end].trim_end()),
        None => line.to_owned(),
    }
}

fn query(variables: &str, query: &str) -> String {
    format!("{HEADER}select {variables} where {query}\n")
}

fn constant(term: &str) -> String {
    format!("select $x where $x = {term}\n")
}

fn listed(count: usize) -> String {
    let terms: Vec<String> = (0..count).map(|n| n.to_string()).collect();
    format!("terms {}\nsuccess\n", terms.join(",\n  "))
}

fn entries(count: usize) -> String {
    let entries: Vec<String> = (0..count).map(|n| format!("<p:{n}> xsd:string")).collect();
    format!("schema {}\nsuccess\n", entries.join(",\n  "))
}

/// A script of so many successes and as few levels as may be: twice as many bytes, less one.
fn long(successes: usize) -> String {
    fn balanced(count: usize) -> String {
        match count {
            1 => "success".to_owned(),
            2 => "success success".to_owned(),
            count => format!("{{ {} }}\n{{ {} }}", balanced(count / 2), balanced(count - count / 2)),
        }
    }
    format!("{}\n", balanced(successes))
}

fn deep(nots: usize) -> String {
    format!("select where {}true\n", "!".repeat(nots))
}

fn variables(count: usize) -> String {
    let blocks = (0..count).map(|n| format!("select $v{n}: xsd:integer where {{}}\n"));
    blocks.collect()
}

#[test]
fn refusal_2_terms() {
    let long = "x".repeat(TEXT_WIDTH + 1);
    let scripts = [
        ("a long IRI", format!("from named <http://club.example/{long}>\n")),
        ("a long IRI under a prefix", format!("prefix club: <http://club.example/>\nfrom named club:{long}\n")),
        ("an IRI like a prefix name", "prefix p: <http://p.example/>\nfrom named <p:speed>\n".to_owned()),
        ("an IRI with another letter", "from named <http://club.example/é>\n".to_owned()),
        ("an empty IRI", "from named <>\n".to_owned()),
        ("a bad escape in an IRI", "from named <http://club.example/\\x41>\n".to_owned()),
        ("a long text", constant(&format!("\"{long}\""))),
        ("a text with another letter", constant("\"Société\"@fr")),
        ("a bad escape in a text", constant("\"a\\n\"")),
        ("a long tag", constant("\"Mallard\"@zh-hant-tw")),
        ("a tag with a digit", constant("\"Mallard\"@es-419")),
        ("an integer over its limit", constant("1000000000001")),
        ("a decimal over its limit", constant("-1000000000000.1")),
        ("a decimal with too many digits", constant("1e-7")),
        ("a dateTime without a zone", constant("2026-03-01T12:00:00")),
        ("a day that there is not", constant("2026-02-29T12:00:00Z")),
        ("a part of a second", constant("2026-03-01T12:00:00.5Z")),
        ("a time before the year 1", constant("0001-01-01T00:00:00+01:00")),
    ];
    insta::assert_snapshot!(messages(2, &scripts));
}

#[test]
fn refusals_3_to_5_terms_and_schema() {
    insta::assert_snapshot!("refusal_3", messages(3, &[("a term twice", "terms 3, 3.0, 3\nsuccess\n".to_owned())]));
    let bad = ["schema <p:speed> xsd:double\nsuccess\n", "schema <p:speed> decimal\nsuccess\n"].map(str::to_owned);
    let [double, decimal] = bad;
    insta::assert_snapshot!("refusal_4", messages(4, &[("no datatype", double), ("no datatype but a word", decimal)]));
    let twice = "schema <p:name> xsd:string,\n  <p:speed> xsd:decimal, <p:name> xsd:string\nsuccess\n".to_owned();
    insta::assert_snapshot!("refusal_5", messages(5, &[("a property twice", twice)]));
}

#[test]
fn refusal_6_form() {
    let scripts = [
        ("no script", "selects $x\n".to_owned()),
        ("no query", "select $x where\n".to_owned()),
        ("no where", "select $x graph $x { $x $x $x }\n".to_owned()),
        ("no named", "from <http://club.example/yard>\n".to_owned()),
        ("no end of a group", "{ success\n".to_owned()),
        ("one brace too many", "success }\n".to_owned()),
        ("no end of triples", query("$g", "graph $g { $g p:speed 3")),
        ("two terms", query("$g", "graph $g { $g p:speed }")),
        ("no end of a union", query("$g", "{ graph $g { $g p:speed 3 } union")),
        ("no end of a string", constant("\"Mallard\n")),
        ("no variable's name", "select $ where {}\n".to_owned()),
        ("no character of a script", constant("3 ? 4")),
        ("an unknown prefix", "from named club:yard\n".to_owned()),
        ("a prefix twice", "prefix p: <http://p.example/>\nprefix p: <http://q.example/>\nsuccess\n".to_owned()),
        (
            "two prefixes of one IRI",
            "prefix p: <http://p.example/>\nprefix q: <http://p.example/>\nsuccess\n".to_owned(),
        ),
        ("no prefix", "prefix <http://p.example/>\nsuccess\n".to_owned()),
        ("no written type", "select $x: decimal where {}\n".to_owned()),
        ("a value alone", query("$g", "graph $g { $g p:speed 3 } $g")),
        ("a condition as a value", query("$g", "abs($g = 3) < 4")),
        ("two signs of comparison", query("$s", "1 < $s <= 3")),
        ("a pattern without quotes", query("$s", "regex($s, ^Mal)")),
        ("a range of a number", query("$s", "langMatches($s, 3)")),
        ("a variable in a terms line", "terms $x\nsuccess\n".to_owned()),
        ("a number that no variable has", "select $16 where {}\n".to_owned()),
        ("a name for another variable", "names $1\nsuccess\n".to_owned()),
        ("two names for a variable", "names $loco\nselect $0: xsd:string where {}\n".to_owned()),
    ];
    insta::assert_snapshot!(messages(6, &scripts));
}

#[test]
fn refusal_6_limits() {
    let scripts = [
        ("five variables in a block", "select $a, $b, $c, $d, $e where {}\n".to_owned()),
        ("seventeen variables", variables(17)),
        ("513 terms", listed(513)),
        ("129 schema entries", entries(129)),
        ("2,049 bytes", long(1025)),
        ("25 records deep", deep(22)),
        ("101 groups", format!("{}{}", "{\n".repeat(101), "}".repeat(101))),
        ("a bad pattern", query("$s", "regex($s, \"[Mm]al\")")),
        ("a star after nothing", query("$s", "regex($s, \"*\")")),
        ("a pattern of 17 bytes", query("$s", "regex($s, \"Flying Scotsman s\")")),
        ("a bad language range", query("$s", "langMatches($s, \"en*\")")),
        ("a range with a capital", query("$s", "langMatches($s, EN)")),
        ("a language range of 9 bytes", query("$s", "langMatches($s, en-gb-oed)")),
    ];
    insta::assert_snapshot!(messages(6, &scripts));
}

#[test]
fn just_within() {
    let folder = Folder::new();
    let long_name = "x".repeat(TEXT_WIDTH);
    let scripts = [
        listed(512),
        entries(128),
        long(1024),
        deep(21),
        variables(16),
        format!("select $a: xsd:string, $b: xsd:string, $c: xsd:string, $d: xsd:string where $a = \"{long_name}\"\n"),
        format!("from named <{long_name}>\n"),
        query("$s", "regex($s, \"Flying Scotsman \")  langMatches($s, en-gb-oe)  $s = \"Mallard\"@en-gb-oe"),
        query("$n", "$n = 1000000000000 || $n < -1000000000000.0"),
        query("$n", "$n = 0.000001  0001-01-01T00:00:00Z < 9999-12-31T23:59:59Z"),
    ];
    for text in scripts {
        folder.write("script.page", &text);
        let said = folder.willet(&["check", "script.page"]);
        assert_eq!(said.code, Some(0), "{}\n{}", said.err, &text[..text.len().min(300)]);
    }
}

#[test]
fn refusal_7_scope() {
    let block = "do select $loco where graph $loco { $loco p:speed 3 }";
    let scripts = [
        ("never bound", format!("{HEADER}from named $yard\n")),
        ("bound in another block", format!("{HEADER}{{ {block} }}\nfrom named $loco\n")),
        ("bound twice", format!("{HEADER}{block}\nselect $x, $loco\nwhere graph $x {{ $loco p:speed 4 }}\n")),
        ("bound twice in one block", "select $x, $x where {}\n".to_owned()),
    ];
    insta::assert_snapshot!(messages(7, &scripts));
}

#[test]
fn refusal_8_no_typing() {
    let scripts = [
        ("two patterns", query("$g, $s, $v", "graph $g { $s p:speed $v ;\n    p:name $v }")),
        ("a number and a text", query("$g, $s, $v", "graph $g { $s p:name $v }\n  60 < $v")),
        ("a number and a text, negated", query("$g, $s, $v", "graph $g { $s p:name $v }\n  $v <= 60")),
        ("three places", query("$g, $s, $a, $b", "graph $g { $s p:name $a }\n  $a = $b\n  abs($b) < 3")),
        ("a page of a text", format!("{HEADER}select $y where langMatches($y, en-*)\nfrom named $y\n")),
        ("a regex on an integer", query("$g", "graph $g { $g p:addr 3 }  regex(3, \"3\")")),
        ("a sum of a text", query("$g", "graph $g { $g p:addr 3 }  str($g) + 1 < 3")),
        ("no schema entry", query("$g, $v", "graph $g { $g p:sped $v }")),
        ("a written type that has no part in it", query("$g: xsd:anyURI, $v", "graph $g { $g p:sped $v }")),
        ("a page of a number", format!("{HEADER}from named 3\n")),
        ("a wrong constant", query("$g", "graph $g { $g p:addr 3.5 }")),
        ("a text for a subject", query("$g", "graph $g { \"Mallard\" p:addr 3 }")),
        ("a written type", query("$g, $v: xsd:string", "graph $g { $g p:speed $v }")),
        ("a property that is any URI", query("$g, $p: xsd:anyURI", "graph $g { $g $p 3 }")),
        (
            "only the two that clash",
            query("$g, $s, $v", "graph $g { $s p:addr 3 . $s p:speed $v }  $v < 3  regex($v, \"3\")"),
        ),
    ];
    insta::assert_snapshot!(messages(8, &scripts));
}

#[test]
fn refusal_9_no_greatest_typing() {
    let scripts = [
        ("a property and its object", query("$g, $s, $p, $o", "graph $g { $s $p $o }")),
        ("with a known object", query("$g, $s, $p, $o", "graph $g { $s $p $o ;\n    p:speed $o }")),
        ("an equation alone", query("$x, $y", "$x = $y")),
        ("a variable that is not used", query("$x", "{}")),
        ("a variable under str only", query("$x", "regex(str($x), \"3\")")),
        (
            "by their numbers, not by their places",
            format!("names $o, $p\n{}", query("$g, $s, $p, $o", "graph $g { $s $p $o ;\n    p:speed $o }")),
        ),
        ("two properties of one number", query("$s, $p, $q, $o", "graph p:g { $s $p $o ; $q $o ; p:speed $o }")),
        (
            "a variable for which there is none before",
            query("$p, $o, $q, $u", "graph p:g { p:g $p $o ; $q $o ; $q $u ; p:speed $o ; p:speed $u }"),
        ),
        ("two variables that are not used", query("$x, $y", "{}")),
    ];
    insta::assert_snapshot!(messages(9, &scripts));
}
