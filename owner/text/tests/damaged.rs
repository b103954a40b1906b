//! Texts with slips in them: reading them ends in a tree or in an error whose places lie in the text, and never in a panic.

use compare::draw::rng::Rng;
use compare::draw::Draw;
use text::{check, decode, parse, print, Diagnostic, Legend};

/// Pieces that slips are made of.
const PIECES: [&str; 26] = [
    "{", "}", "(", ")", "$", "$x", "\"", "<", ">", "-", "é", ":", ";", ".", "\\", "@", "#", "&&", "select", "where",
    "graph", "p:", "1e", "^", "<=", "!=",
];

fn places_lie_in(text: &str, error: &Diagnostic) {
    for label in &error.labels {
        let span = label.span.clone();
        assert!(text.get(span).is_some(), "{error:?}\n{text}");
    }
    assert!(!error.labels.is_empty() && (2..=9).contains(&error.refusal), "{error:?}");
}

/// A text with a piece put in, taken out or repeated somewhere.
fn damaged(rng: &mut Rng, text: &str) -> String {
    let places: Vec<usize> = text.char_indices().map(|(place, _)| place).collect();
    let mut two = [0, 0].map(|_: usize| rng.pick(&places).copied().unwrap_or(0));
    two.sort_unstable();
    let [from, to] = two;
    match rng.below(4) {
        0 => format!("{}{}", &text[..from], &text[to..]),
        1 => format!("{}{}", &text[..to], &text[from..]),
        2 => text[..from].to_owned(),
        _ => format!("{}{}{}", &text[..from], rng.one(&PIECES), &text[from..]),
    }
}

#[test]
fn slips_are_told() {
    let mut errors = 0;
    for index in 0..2_000 {
        let mut rng = Rng::new(29, index);
        let (_, station, _) = Draw::new(28, index);
        let Ok(source) = decode(&station.card, &Legend::default()) else { continue };
        let mut text = print(&source);
        for _ in 0..rng.within(1, 3) {
            text = damaged(&mut rng, &text);
        }
        // only short texts are checked for types too: each error of these takes some loads
        let result = parse(&text).and_then(|source| if text.len() < 400 { check(&source).map(drop) } else { Ok(()) });
        if let Err(error) = result {
            places_lie_in(&text, &error);
            errors += 1;
        }
    }
    assert!(errors > 500, "{errors} slips were told");
}
