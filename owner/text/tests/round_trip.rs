//! Cards to text and back, on the scripts that the comparison of both engines draws.
//!
//! `WILLET_CASES` says how many; the gate takes 2,000.

use compare::draw::Draw;
use text::{check, decode, encode, parse, print, Legend};
use willetcoffer::{Card, Refusal, Tables};

fn cases() -> u64 {
    std::env::var("WILLET_CASES").ok().and_then(|count| count.parse().ok()).unwrap_or(2_000)
}

/// Card to text to card, and what the check says against the load.
fn round_trip(card: &Card, loaded: Option<u32>) -> Result<(), String> {
    let source = decode(card, &Legend::default()).map_err(|error| error.to_string())?;
    let text = print(&source);
    let read = parse(&text).map_err(|error| format!("{error:?}\n{text}"))?;
    let refusal = check(&read).err().map(|error| error.refusal);
    if refusal != loaded {
        return Err(format!("the load says {loaded:?}, the check {refusal:?}\n{text}"));
    }
    let Ok(again) = encode(&read) else { return Ok(()) };
    if again.card != *card {
        return Err(format!("another card comes back\n{text}"));
    }
    let named = decode(&again.card, &again.legend).map_err(|error| error.to_string())?;
    if print(&named) != text {
        return Err(format!("another text comes back\n{text}\n{}", print(&named)));
    }
    Ok(())
}

/// Legends that were made for other cards: with prefixes that fit, with some that would shorten otherwise, and names for a few variables.
fn legends() -> [Legend; 2] {
    let fitting = "prefix u: <http://u.example/>\nprefix p: <http://p.example/>\nnames $loco, $1, $speed\n";
    let shadowing = format!("prefix one: <http://u.example/1>\n{fitting}");
    [fitting, &shadowing].map(|text| Legend::parse(text).expect("a legend"))
}

/// Card to text to card under another card's legend.
fn under(legend: &Legend, card: &Card) -> Result<(), String> {
    let source = decode(card, legend).map_err(|error| error.to_string())?;
    let text = print(&source);
    let read = parse(&text).map_err(|error| format!("{error:?}\n{text}"))?;
    match encode(&read) {
        Ok(again) if again.card != *card => Err(format!("another card comes back under a legend\n{text}")),
        Err(error) if error.refusal != 7 => Err(format!("{error:?}\n{text}")),
        _ => Ok(()),
    }
}

/// Signs that a card does not hold: each with the card's own words for it, and as it is shown.
#[test]
fn signs_of_comparison() {
    let rows = [
        ("$x > 3", "3 < $x", "3 < $x"),
        ("$x <= 3", "!(3 < $x)", "3 >= $x"),
        ("$x >= 3", "!($x < 3)", "$x >= 3"),
        ("$x != 3", "!($x = 3)", "$x != 3"),
        ("!($x <= 3)", "!!(3 < $x)", "!(3 >= $x)"),
        ("!!($x != 3)", "!!!($x = 3)", "!!($x != 3)"),
        ("!!true", "!!true", "!!true"),
        ("(-3 >= $x)", "!(-3 < $x)", "(-3 >= $x)"),
        ("$x + 1 <= abs($x - 2)", "!(abs($x - 2) < $x + 1)", "abs($x - 2) >= $x + 1"),
        ("$x != 3 && 4 <= $x || $x = 5", "!($x = 3) && !($x < 4) || $x = 5", "$x != 3 && $x >= 4 || $x = 5"),
    ];
    for (written, plain, shown) in rows {
        let script = |filter: &str| parse(&format!("select $x: xsd:integer where {filter}")).expect(filter);
        let encoded = encode(&script(written)).expect(written);
        assert_eq!(encoded.card, encode(&script(plain)).expect(plain).card, "{written}");
        let text = print(&decode(&encoded.card, &encoded.legend).expect("a card"));
        assert_eq!(text, format!("select $x: xsd:integer\nwhere {shown}\n"));
        assert_eq!(encode(&parse(&text).expect(&text)).expect(&text).card, encoded.card, "{text}");
    }
}

#[test]
fn text_and_card_of_random_scripts() {
    let legends = legends();
    let mut met = [0; 10];
    for index in 0..cases() {
        let (_, station, sort) = Draw::new(28, index);
        let loaded = station.card.load(&mut Tables::new()).err().map(Refusal::number);
        met[loaded.unwrap_or(0) as usize] += 1;
        match loaded {
            // bytes that are no card: the reader says the same, or leaves limits and places to the load
            Some(number @ 2..=6) => match decode(&station.card, &Legend::default()) {
                Err(bad) => assert_eq!(bad.refusal, number, "case {index}: {bad}"),
                Ok(source) => {
                    let refused = parse(&print(&source)).and_then(|read| check(&read));
                    assert!(refused.is_err(), "case {index} ({sort}): refused {number} as a card, and not as text");
                }
            },
            _ => {
                let mut results = legends.iter().map(|legend| under(legend, &station.card));
                if let Err(what) =
                    round_trip(&station.card, loaded).and_then(|()| results.try_for_each(|result| result))
                {
                    panic!("case {index} ({sort}): {what}");
                }
            }
        }
    }
    println!("accepted {}, refused by number {:?}", met[0], &met[2..]);
    assert!(met[0] > 0 && met[7] > 0 && met[8] > 0 && met[9] > 0, "too few sorts of cards: {met:?}");
}
