//! The roster cases of document 01, as text: schema p:speed decimal, p:addr integer, p:name string; patterns with open $g and $s.

use text::{check, encode, parse};
use willetcoffer::{State, Tables};

const HEADER: &str =
    "prefix p: <http://p.example/>  schema p:speed xsd:decimal, p:addr xsd:integer, p:name xsd:string\n";

/// What a check says of these variables and this query: the types of some variables, or the number of the refusal.
fn outcome(variables: &str, query: &str, asked: &[&str]) -> Result<Vec<String>, u32> {
    let text = format!("{HEADER} select {variables} where {query}");
    let source = parse(&text).map_err(|error| error.refusal)?;
    let types = check(&source).map_err(|error| error.refusal)?;
    let of = |name: &&str| types.iter().find(|row| row.0 == **name).map(|row| row.1.to_string()).unwrap_or_default();
    Ok(asked.iter().map(of).collect())
}

fn types(words: &[&str]) -> Result<Vec<String>, u32> {
    Ok(words.iter().map(|word| (*word).to_owned()).collect())
}

/// A pattern row: the triples after `$s`, and what comes out for some variables.
type Row<'a> = (&'a str, &'a str, &'a [&'a str], Result<&'a [&'a str], u32>);

#[test]
fn every_m_row_of_patterns() {
    let rows: [Row; 10] = [
        ("$g, $s, $v", "p:speed $v", &["v"], Ok(&["xsd:decimal"])),
        ("$g, $s, $v", "p:speed $v ; p:addr $v", &["v"], Ok(&["xsd:integer"])),
        ("$g, $s, $v", "p:speed $v ; p:name $v", &[], Err(8)),
        ("$g, $s, $p", "$p 3", &["p"], Ok(&["range(xsd:integer)"])),
        ("$g, $s, $p", "$p 3.5", &["p"], Ok(&["range(xsd:decimal)"])),
        ("$g, $s, $p, $o", "$p $o", &[], Err(9)),
        ("$g, $s, $p, $o", "$p $o ; p:name $o", &["p"], Ok(&["range(xsd:string)"])),
        ("$g, $s, $p, $o", "$p $o ; p:speed $o", &[], Err(9)),
        ("$g, $s, $p, $o", "$p $o ; p:addr $o", &["p"], Ok(&["range(xsd:integer)"])),
        ("$g, $s, $x", "$x $x", &["x"], Ok(&["range(xsd:anyURI)"])),
    ];
    for (variables, triples, asked, expected) in rows {
        let query = format!("graph $g {{ $s {triples} }}");
        assert_eq!(outcome(variables, &query, asked), expected.and_then(types), "{query}");
    }
}

#[test]
fn every_m_row_of_filters() {
    assert_eq!(outcome("$x, $y", "$x = $y", &[]), Err(9));
    assert_eq!(outcome("$x, $y", "$x = $y  $y = 3", &["x", "y"]), types(&["xsd:decimal", "xsd:decimal"]));
}

/// Whether a filter alone holds, so that the script ends, or does not, so that it waits.
fn holds(filter: &str) -> bool {
    let card = encode(&parse(&format!("select where {filter}")).expect("a script")).expect("a card").card;
    let mut tables = Tables::new();
    let mut saved = card.load(&mut tables).expect("it loads");
    card.run(&tables, &mut saved, 10, 0).expect("it runs").state == State::Ended
}

#[test]
fn the_rows_of_str() {
    assert!(holds("str(1969-12-31T23:59:59Z) = \"1969-12-31T23:59:59Z\""));
    assert!(holds("str(2000-02-29T01:00:00+01:00) = \"2000-02-29T00:00:00Z\""));
    assert!(holds("str(now) = \"1970-01-01T00:00:00Z\""));
    assert!(holds("str(-0.50) = \"-0.5\" && str(3e0) = \"3.0\" && str(-3) = \"-3\""));
    assert!(!holds("str(3) = \"3.0\""));
}

/// Each sign of comparison on something less, equal and greater; and on a sum past its limit, where the comparison is unknown, so
/// that neither it nor its negation holds (document 02, Ask 5).
#[test]
fn the_signs_of_comparison() {
    let signs = [
        ("=", [false, true, false]),
        ("!=", [true, false, true]),
        ("<", [true, false, false]),
        ("<=", [true, true, false]),
        (">", [false, false, true]),
        (">=", [false, true, true]),
    ];
    let values = [
        ("2", "2.5"),
        ("-3", "2"),
        ("\"a\"", "\"b\"@en"),
        ("<u:a>", "<u:b>"),
        ("2026-03-01T12:00:00Z", "2026-03-01T12:00:01Z"),
    ];
    let over = "1000000000000 + 1";
    for (sign, expected) in signs {
        for (less, more) in values {
            let found = [(less, more), (less, less), (more, less)].map(|(a, b)| holds(&format!("({a} {sign} {b})")));
            assert_eq!(found, expected, "{less} {sign} {more}");
        }
        let texts = format!("str({over}) {sign} \"3\"");
        for unknown in [format!("{over} {sign} 3"), format!("3 {sign} {over}"), format!("{over} {sign} {over}"), texts]
        {
            assert!(!holds(&unknown) && !holds(&format!("!({unknown})")), "{unknown}");
            assert!(holds(&format!("{unknown} || true")) && holds(&format!("!({unknown} && false)")), "{unknown}");
        }
    }
}

#[test]
fn the_suggestion_of_refusal_9() {
    let text = format!("{HEADER} select $g, $s, $p, $o where graph $g {{ $s $p $o ; p:speed $o }}");
    let error = check(&parse(&text).expect("a script")).expect_err("refusal 9");
    assert_eq!((error.refusal, &error.help[..]), (9, &["write `$p: range(xsd:decimal)`".to_owned()][..]));
}
