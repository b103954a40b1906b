//! Texts of numbers: written for a number in one of its many forms, for a refusal, or by chance alone.

use super::rng::Rng;
use crate::call::number::Text;
use crate::judge::numbers::str_text;
use second::term::Term;
use willetcoffer::limits::{DECIMAL_LIMIT, INTEGER_LIMIT, NUMBER_RECORD_WIDTH, NUMBER_TEXT_LIMIT};
use willetcoffer::term::PLACES;

/// A number to be written: its count of units of ten to minus `places`. An integer has whole units.
#[derive(Clone, Copy)]
struct Amount {
    count: i64,
    places: i32,
    decimal: bool,
}

/// What a text was written for.
type Due = Option<Result<Term, u32>>;

/// The text of this index.
pub fn text(seed: u64, index: u64) -> Text {
    let rng = &mut Rng::new(seed, index);
    let (bytes, due) = match rng.weighted(&[8, 30, 8, 8, 10, 20, 6, 6, 6]) {
        0 => by_str(rng),
        1 => in_some_form(rng),
        2 => too_fine(rng),
        3 => too_large(rng),
        4 => stretched(rng),
        5 => (spoiled(rng), Some(Err(16))),
        6 => (by_the_form(rng), None),
        7 => (damaged(rng), None),
        _ => (wild(rng), None),
    };
    let record = if rng.one_in(12) { other_width(rng) } else { NUMBER_RECORD_WIDTH };
    Text { bytes, record, due }
}

fn other_width(rng: &mut Rng) -> usize {
    let any = NUMBER_RECORD_WIDTH + rng.within(2, 60);
    rng.one(&[0, NUMBER_RECORD_WIDTH - 1, NUMBER_RECORD_WIDTH + 1, any])
}

/// A number within the limits of its kind, often at one, or one past it.
fn amount(rng: &mut Rng) -> Amount {
    let decimal = rng.percent(60);
    let (limit, places) = if decimal { (DECIMAL_LIMIT, PLACES as i32) } else { (INTEGER_LIMIT, 0) };
    let count = match rng.below(14) {
        0..=1 => 0,
        2..=3 => limit,
        4..=5 => limit + 1,
        6 => limit - 1,
        7..=8 => rng.within(1, 20) as i64,
        9..=11 => rng.within(1, 999) as i64 * 10i64.pow(rng.below(if decimal { 16 } else { 10 }) as u32),
        _ => (rng.next() % (limit as u64 + 1)) as i64,
    };
    Amount { count: if rng.percent(45) { -count } else { count }, places, decimal }
}

/// What a number is read as.
fn due(amount: Amount) -> Due {
    let Amount { count, decimal, .. } = amount;
    let (term, limit) = if decimal { (Term::Dec(count), DECIMAL_LIMIT) } else { (Term::Int(count), INTEGER_LIMIT) };
    Some(if count.abs() <= limit { Ok(term) } else { Err(17) })
}

/// A number by the text that str gives for it.
fn by_str(rng: &mut Rng) -> (Vec<u8>, Due) {
    let Amount { count, decimal, .. } = amount(rng);
    let term = if decimal {
        Term::Dec(count.clamp(-DECIMAL_LIMIT, DECIMAL_LIMIT))
    } else {
        Term::Int(count.clamp(-INTEGER_LIMIT, INTEGER_LIMIT))
    };
    (str_text(term), Some(Ok(term)))
}

fn in_some_form(rng: &mut Rng) -> (Vec<u8>, Due) {
    let amount = amount(rng);
    (written(rng, amount).into_bytes(), due(amount))
}

/// A number with a digit behind the last place of a millionth.
fn too_fine(rng: &mut Rng) -> (Vec<u8>, Due) {
    let count = 10 * (rng.next() % 10u64.pow(rng.below(17) as u32)) as i64 + rng.within(1, 9) as i64;
    let places = PLACES as i32 + if rng.one_in(2) { 1 } else { rng.within(1, 30) as i32 };
    let count = if rng.one_in(3) { -count } else { count };
    (written(rng, Amount { count, places, decimal: true }).into_bytes(), Some(Err(17)))
}

/// Powers of two and a little more: what of them a number of 64 or 128 bits keeps is little, or negative.
const COMING_ROUND: [&str; 6] = [
    "9223372036854775808",
    "18446744073709551616",
    "18446744073709551619",
    "170141183460469231731687303715884105728",
    "340282366920938463463374607431768211456",
    "340282366920938463463374607431768211459",
];

/// A number far outside the limits.
fn too_large(rng: &mut Rng) -> (Vec<u8>, Due) {
    let sign = rng.one(&["", "+", "-"]);
    let text = match rng.below(3) {
        0 => format!("{sign}{}", rng.one(&COMING_ROUND)),
        1 => {
            // None of them ends with a zero, so where the exponent leaves little enough, a part of a millionth is left.
            let (power, start) = (rng.within(0, 12), rng.one(&COMING_ROUND[..3]));
            format!("{sign}{start}{}", exponent(rng, -(power as i32)))
        }
        _ => {
            let count = rng.within(1, 999) as i64;
            let places = -(rng.within(13, 99) as i32);
            written(rng, Amount { count, places, decimal: true })
        }
    };
    (text.into_bytes(), Some(Err(17)))
}

/// A number with so many zeros in front that it is as long as it may be, or one byte or two longer or shorter.
fn stretched(rng: &mut Rng) -> (Vec<u8>, Due) {
    let amount = amount(rng);
    let text = written(rng, amount);
    let length = NUMBER_TEXT_LIMIT + rng.weighted(&[1, 4, 4, 1]) - 1;
    let (sign, rest) = text.split_at(text.len() - text.trim_start_matches(['+', '-']).len());
    let zeros = "0".repeat(length.saturating_sub(text.len()));
    let due = if length > NUMBER_TEXT_LIMIT { Some(Err(16)) } else { due(amount) };
    (format!("{sign}{zeros}{rest}").into_bytes(), due)
}

/// Zeros that alter nothing: none, one, some.
fn zeros(rng: &mut Rng) -> String {
    let some = rng.below(6);
    "0".repeat(rng.one(&[0, 0, 0, 1, some]))
}

/// An exponent's text, its sign and a zero in front where they may be left out there now and then.
fn exponent(rng: &mut Rng, power: i32) -> String {
    let sign = match power {
        ..0 => "-",
        0 => rng.one(&["", "+", "-"]),
        _ => rng.one(&["", "+"]),
    };
    let (letter, amount) = (rng.one(&["e", "E"]), power.abs());
    let digits = if rng.one_in(2) { format!("{amount:02}") } else { amount.to_string() };
    format!("{letter}{sign}{digits}")
}

/// An exponent for a number of so many places: one that leaves no digit after the point, one nearby, any.
fn power(rng: &mut Rng, places: i32) -> i32 {
    let any = rng.within(0, 198) as i32 - 99;
    let near = rng.within(0, 16) as i32 - 8;
    rng.one(&[-places, near - places, near, any]).clamp(-99, 99)
}

/// A number in one of its forms, as long as a text may be at most: digits, for a decimal a point among them, an exponent that makes up for
/// it, or both, and needless zeros.
fn written(rng: &mut Rng, amount: Amount) -> String {
    for _ in 0..40 {
        let power = (amount.decimal && rng.percent(70)).then(|| power(rng, amount.places));
        let text = with_power(rng, amount, power);
        if text.len() <= NUMBER_TEXT_LIMIT {
            return text;
        }
    }
    let Amount { count, places, .. } = amount;
    format!("{count}e{}", -places)
}

fn with_power(rng: &mut Rng, amount: Amount, power: Option<i32>) -> String {
    let Amount { count, places, decimal } = amount;
    // So many digits stand after the point; where they are fewer than none, zeros take their place.
    let after = if count == 0 { 0 } else { places + power.unwrap_or(0) };
    let mut digits = count.unsigned_abs().to_string();
    digits += &"0".repeat((-after).max(0) as usize);
    let after = after.max(0) as usize;
    let all = format!("{}{digits}", "0".repeat((after + 1).saturating_sub(digits.len())));
    let (whole, fraction) = all.split_at(all.len() - after);
    let fraction = if rng.one_in(4) { fraction } else { fraction.trim_end_matches('0') };
    let mut fraction = if fraction.is_empty() { String::new() } else { format!("{fraction}{}", zeros(rng)) };
    if decimal && fraction.is_empty() && (power.is_none() || rng.one_in(3)) {
        fraction = format!("0{}", zeros(rng));
    }
    let sign = match count {
        ..0 => "-",
        0 => rng.one(&["", "+", "-", "-"]),
        _ => rng.one(&["", "", "+"]),
    };
    let point = if fraction.is_empty() { "" } else { "." };
    let exponent = power.map_or(String::new(), |power| exponent(rng, power));
    format!("{sign}{}{whole}{point}{fraction}{exponent}", zeros(rng))
}

/// Bytes that stand in no number.
const FOREIGN: &[u8] = b" \0\t\n,_'xfdINa:/\x7f\x80\xb2\xff";

/// A text that has not the form, most often by little.
fn spoiled(rng: &mut Rng) -> Vec<u8> {
    let amount = amount(rng);
    let decimal = Amount { places: PLACES as i32, decimal: true, ..amount };
    let amount = if rng.percent(80) { decimal } else { amount };
    let text = written(rng, amount);
    let (mantissa, power) = text.split_at(text.find(['e', 'E']).unwrap_or(text.len()));
    let (whole, fraction) = mantissa.split_once('.').unwrap_or((mantissa, "5"));
    let sign = &whole[..whole.len() - whole.trim_start_matches(['+', '-']).len()];
    let at = rng.below(text.len() + 1);
    let inserted = |byte: u8| [&text.as_bytes()[..at], &[byte], &text.as_bytes()[at..]].concat();
    let letter = rng.one(&["e", "E"]);
    let spoiled = match rng.below(10) {
        0 => format!("{sign}.{fraction}{power}"),
        1 => format!("{whole}.{power}"),
        2 => format!("{mantissa}{letter}{}", rng.one(&["", "+", "-"])),
        3 => {
            format!("{mantissa}{letter}{}{}", rng.one(&["", "+", "-"]), rng.one(&["000", "001", "005", "100", "0012"]))
        }
        4 => format!("{}{}{text}", rng.one(&["+", "-"]), if sign.is_empty() { "-" } else { "" }),
        5 => return inserted(b' '),
        6 => return inserted(rng.one(FOREIGN)),
        // A second point, or one behind everything.
        7 if mantissa.contains('.') => return inserted(b'.'),
        7 => format!("{text}."),
        8 => format!("{mantissa}{letter}5{letter}{}", rng.below(10)),
        _ => rng.one(&["", "+", "-", ".", "e", "e5", "+e5", ".e5", "-.", "E", "--", "+-0", "e-7"]).to_string(),
    };
    spoiled.into_bytes()
}

fn digits(rng: &mut Rng, most: usize) -> String {
    let count = rng.within(1, most);
    (0..count).map(|_| rng.one(&['0', '0', '1', '5', '9', '7'])).collect()
}

/// Parts as the form has them, whatever number that gives.
fn by_the_form(rng: &mut Rng) -> Vec<u8> {
    let most = rng.one(&[1, 3, 13, 20, 38]);
    let mut text = format!("{}{}", rng.one(&["", "+", "-"]), digits(rng, most));
    if rng.one_in(2) {
        text += &format!(".{}", digits(rng, 9));
    }
    if rng.percent(60) {
        text += &format!("{}{}{}", rng.one(&["e", "E"]), rng.one(&["", "+", "-", "-"]), digits(rng, 2));
    }
    text.into_bytes()
}

/// What numbers are made of, and a blank.
const LETTERS: &[u8] = b"+-.eE0123456789 ";

/// A number with a byte or two changed, left out or put in.
fn damaged(rng: &mut Rng) -> Vec<u8> {
    let amount = amount(rng);
    let mut bytes = written(rng, amount).into_bytes();
    for _ in 0..rng.within(1, 2) {
        let at = rng.below(bytes.len());
        let byte = if rng.one_in(8) { rng.next() as u8 } else { rng.one(LETTERS) };
        match rng.below(3) {
            0 if !bytes.is_empty() => bytes[at] = byte,
            1 if !bytes.is_empty() => {
                bytes.remove(at);
            }
            _ => bytes.insert(at, byte),
        }
    }
    bytes
}

/// Any bytes.
fn wild(rng: &mut Rng) -> Vec<u8> {
    let length = rng.one(&[0, 0, 1, 1, 2, 3, 4, 5, 8, 39, 40, 41, 45, 200]);
    let any = rng.one_in(3);
    (0..length).map(|_| if any { rng.next() as u8 } else { rng.one(LETTERS) }).collect()
}
