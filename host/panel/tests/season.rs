//! The season's screen. Steps by document 01's machine: from named 1, sequence 1, two answers of the each block 2 each, its
//! drop 1; then once 1 and success 1. One record of the first page has a string where the schema asks for a decimal. Then the
//! card of once blocks: its six records of kinds 71 to 74 are the whole bar. Then document 02's example of a suggestion: at the property
//! variable range(decimal), code 11. Last the yard's three triples, a string (kind 82, 297 bytes), a decimal and a dateTime (84 and 85, 201
//! bytes each), in the order of their kinds.

use std::process::Command;

#[test]
fn the_season_on_one_screen() {
    let output = Command::new(env!("CARGO_BIN_EXE_panel")).output().expect("the panel runs");
    let screen = String::from_utf8(output.stdout).expect("text");
    let lines: Vec<&str> = screen.lines().collect();
    let expected = [
        "load     accepted",
        "         $loco    xsd:anyURI",
        "         $name    xsd:string",
        "         $speed   xsd:decimal",
        "         $closes  xsd:dateTime",
        "bar      none: the script has an each block",
        "run      0 steps, wants http://club.example/yard",
        "page     the yard's first page: 1 skipped, 7 quads stored",
        "         roster: Mallard 126.4",
        "         roster: Adler 65",
        "run      7 steps, waiting",
        "page     the page rewritten: 0 skipped, 3 quads stored",
        "run      2 steps, ended",
        "roster   2 locomotives",
        "",
        "the first locomotive alone, by once blocks:",
        "load     accepted",
        "         $loco    xsd:anyURI",
        "         $name    xsd:string",
        "         $speed   xsd:decimal",
        "         $closes  xsd:dateTime",
        "bar      [------] 0 of 6",
        "run      0 steps, wants http://club.example/yard",
        "bar      [------] 0 of 6",
        "page     the yard's first page: 1 skipped, 7 quads stored",
        "         roster: Mallard 126.4",
        "run      4 steps, waiting",
        "bar      [####--] 4 of 6",
        "page     the page rewritten: 0 skipped, 3 quads stored",
        "run      2 steps, ended",
        "bar      [######] 6 of 6",
        "roster   1 locomotives",
        "",
        "a card that can be read in two ways:",
        "load     refused 9: typings, none above the rest",
        "suggest  write range(xsd:decimal) at $property, and nothing else",
        "load     accepted",
        "         $loco      xsd:anyURI",
        "         $property  range(xsd:decimal)",
        "         $value     xsd:decimal",
        "",
        "what the station knows of the yard, for other stations:",
        "publish  3 records, 699 bytes",
        "         http://club.example/loco/1 p:name Mallard",
        "         http://club.example/loco/1 p:speed 126.4",
        "         http://club.example/yard p:closes second 1798675200",
        "page     a second station: 0 skipped, 3 quads stored",
        "publish  the same bytes",
    ];
    assert_eq!(lines, expected);
}
