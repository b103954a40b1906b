//! Numbers as makers print them (document 02, Ask 1): a text of 1 to 40 bytes, read as an integer or a decimal, exactly.
//!
//! Read in two ways that give the same: [`plain`] takes the text apart as its form is written and reckons with whole numbers of any
//! size; [`fast`] goes over the bytes once and adds the digits up by their places.

use crate::limits::{DECIMAL, INTEGER, MILLION, NUMBER_TEXT};
use crate::refusal::{demand, Refusal};
use crate::term::Term;
use crate::whole::Whole;

/// A way to read the text of a number.
pub type Reading = fn(&[u8]) -> Result<Term, Refusal>;

/// A decimal counts in units of ten to minus this.
const PLACES: i32 = MILLION.ilog10() as i32;

const LENGTH: Refusal = Refusal { number: 16, why: "number's length" };
const FORM: Refusal = Refusal { number: 16, why: "number's form" };
const PART: Refusal = Refusal { number: 17, why: "no whole count of millionths" };
const OUTSIDE: Refusal = Refusal { number: 17, why: "number outside its limits" };

/// The parts of a text that has the form.
#[derive(Clone, Copy, PartialEq, Eq, Debug)]
pub struct Parts<'a> {
    /// The sign, where there is one.
    pub sign: Option<u8>,
    /// The digits before the point.
    pub whole: &'a [u8],
    /// The digits after it, where there is one.
    pub fraction: Option<&'a [u8]>,
    /// The exponent, where there is one.
    pub exponent: Option<Exponent<'a>>,
}

/// An exponent's parts.
#[derive(Clone, Copy, PartialEq, Eq, Debug)]
pub struct Exponent<'a> {
    /// `e` or `E`.
    pub letter: u8,
    /// The sign, where there is one.
    pub sign: Option<u8>,
    /// One digit or two.
    pub digits: &'a [u8],
}

fn sign(text: &[u8]) -> (Option<u8>, &[u8]) {
    match text {
        [sign @ (b'+' | b'-'), rest @ ..] => (Some(*sign), rest),
        _ => (None, text),
    }
}

/// The digits that a text begins with, one at least, and the rest.
fn digits(text: &[u8]) -> Option<(&[u8], &[u8])> {
    let count = text.iter().take_while(|byte| byte.is_ascii_digit()).count();
    (count > 0).then(|| text.split_at(count))
}

fn fraction(text: &[u8]) -> Option<(Option<&[u8]>, &[u8])> {
    match text {
        [b'.', rest @ ..] => digits(rest).map(|(digits, rest)| (Some(digits), rest)),
        _ => Some((None, text)),
    }
}

fn exponent(text: &[u8]) -> Option<(Option<Exponent<'_>>, &[u8])> {
    match text {
        [letter @ (b'e' | b'E'), rest @ ..] => {
            let (sign, rest) = sign(rest);
            let (digits, rest) = digits(rest).filter(|(digits, _)| digits.len() <= 2)?;
            Some((Some(Exponent { letter: *letter, sign, digits }), rest))
        }
        _ => Some((None, text)),
    }
}

/// An optional sign, digits, optionally a point with digits after it, optionally e or E with an optional sign and one or two digits:
/// the parts of a text of this form, of whatever length.
pub fn parts(text: &[u8]) -> Option<Parts<'_>> {
    let (sign, rest) = sign(text);
    let (whole, rest) = digits(rest)?;
    let (fraction, rest) = fraction(rest)?;
    let (exponent, rest) = exponent(rest)?;
    rest.is_empty().then_some(Parts { sign, whole, fraction, exponent })
}

impl Parts<'_> {
    /// With neither point nor exponent it is an integer, otherwise a decimal.
    pub fn is_decimal(&self) -> bool {
        self.fraction.is_some() || self.exponent.is_some()
    }

    /// The value is all the digits, as one whole number, times ten to this.
    fn power(&self) -> i32 {
        let after_point = self.fraction.map_or(0, <[u8]>::len) as i32;
        let exponent = self.exponent.map_or(0, |Exponent { sign, digits, .. }| {
            let amount = digits.iter().fold(0, |amount, digit| 10 * amount + i32::from(digit - b'0'));
            if sign == Some(b'-') {
                -amount
            } else {
                amount
            }
        });
        exponent - after_point
    }

    /// How many units the value is, whatever its sign: ones of an integer, millionths of a decimal. None where a part of one is left.
    pub fn count(&self) -> Option<Whole> {
        let digits = self.whole.iter().chain(self.fraction.into_iter().flatten());
        let mut count = digits.fold(Whole::default(), |whole, digit| whole.ten_times_and(digit - b'0'));
        let power = self.power() + if self.is_decimal() { PLACES } else { 0 };
        for _ in 0..power {
            count = count.ten_times_and(0);
        }
        for _ in power..0 {
            count = count.tenth()?;
        }
        Some(count)
    }

    /// The term that has the value.
    pub fn term(&self) -> Result<Term, Refusal> {
        let limit = if self.is_decimal() { DECIMAL } else { INTEGER };
        let count = self.count().ok_or(PART)?.to_i64().filter(|count| *count <= limit).ok_or(OUTSIDE)?;
        let count = if self.sign == Some(b'-') { -count } else { count };
        Ok(if self.is_decimal() { Term::Dec(count) } else { Term::Int(count) })
    }
}

/// As defined: the form, then the value as a whole number times a power of ten.
pub fn plain(text: &[u8]) -> Result<Term, Refusal> {
    demand((1..=NUMBER_TEXT).contains(&text.len()), LENGTH.number, LENGTH.why)?;
    parts(text).ok_or(FORM)?.term()
}

/// What a pass over a text has met last.
#[derive(Clone, Copy)]
enum Last {
    Nothing,
    Sign,
    Whole,
    Point,
    Fraction,
    Letter,
    ExponentSign,
    FirstDigit,
    SecondDigit,
}

impl Last {
    /// What the next byte is then; none where it may not stand there.
    fn then(self, byte: u8) -> Option<Last> {
        Some(match (self, byte) {
            (Last::Nothing, b'+' | b'-') => Last::Sign,
            (Last::Nothing | Last::Sign | Last::Whole, b'0'..=b'9') => Last::Whole,
            (Last::Whole, b'.') => Last::Point,
            (Last::Point | Last::Fraction, b'0'..=b'9') => Last::Fraction,
            (Last::Whole | Last::Fraction, b'e' | b'E') => Last::Letter,
            (Last::Letter, b'+' | b'-') => Last::ExponentSign,
            (Last::Letter | Last::ExponentSign, b'0'..=b'9') => Last::FirstDigit,
            (Last::FirstDigit, b'0'..=b'9') => Last::SecondDigit,
            _ => return None,
        })
    }

    /// Whether the text may end here.
    fn may_end(self) -> bool {
        matches!(self, Last::Whole | Last::Fraction | Last::FirstDigit | Last::SecondDigit)
    }
}

/// What a pass over a text gathers.
#[derive(Default)]
struct Pass {
    negative: bool,
    decimal: bool,
    /// How many digits there are, the exponent's left out.
    digits: usize,
    /// How many of them stand before the point.
    before: i32,
    exponent: i32,
    downward: bool,
}

impl Pass {
    fn over(text: &[u8]) -> Option<Pass> {
        let (mut pass, mut last) = (Pass::default(), Last::Nothing);
        for byte in text {
            last = last.then(*byte)?;
            pass.take(last, *byte);
        }
        last.may_end().then_some(pass)
    }

    fn take(&mut self, last: Last, byte: u8) {
        match last {
            Last::Nothing => {}
            Last::Sign => self.negative = byte == b'-',
            Last::Whole | Last::Fraction => {
                self.digits += 1;
                self.before += i32::from(matches!(last, Last::Whole));
            }
            Last::Point | Last::Letter => self.decimal = true,
            Last::ExponentSign => self.downward = byte == b'-',
            Last::FirstDigit | Last::SecondDigit => self.exponent = 10 * self.exponent + i32::from(byte - b'0'),
        }
    }

    /// The text's digits added up, each at its place, the lowest place being that of the unit. A digit below it leaves a part of a
    /// unit, one above the nineteenth place is outside every limit.
    fn count(&self, text: &[u8]) -> Result<u64, Refusal> {
        let shift = if self.downward { -self.exponent } else { self.exponent };
        let mut place = self.before + shift + if self.decimal { PLACES } else { 0 };
        let (mut sum, mut outside) = (0, false);
        for byte in text.iter().filter(|byte| byte.is_ascii_digit()).take(self.digits) {
            place -= 1;
            match (byte, place) {
                (b'0', _) => {}
                (_, ..0) => return Err(PART),
                (_, 19..) => outside = true,
                _ => sum += u64::from(byte - b'0') * 10u64.pow(place as u32),
            }
        }
        if outside {
            Err(OUTSIDE)
        } else {
            Ok(sum)
        }
    }
}

/// In one pass, each digit taken for what it is at its place.
pub fn fast(text: &[u8]) -> Result<Term, Refusal> {
    if text.is_empty() || text.len() > NUMBER_TEXT {
        return Err(LENGTH);
    }
    let pass = Pass::over(text).ok_or(FORM)?;
    let (kind, limit): (fn(i64) -> Term, i64) = if pass.decimal { (Term::Dec, DECIMAL) } else { (Term::Int, INTEGER) };
    let count = pass.count(text)?;
    demand(count <= limit.unsigned_abs(), OUTSIDE.number, OUTSIDE.why)?;
    Ok(kind(if pass.negative { -(count as i64) } else { count as i64 }))
}

#[cfg(test)]
mod tests {
    use super::*;

    /// What both ways give, with the same reason.
    fn read(text: &[u8]) -> Result<Term, Refusal> {
        let read = plain(text);
        assert_eq!(fast(text), read, "{}", text.escape_ascii());
        read
    }

    /// All texts of up to so many of these bytes.
    fn texts(bytes: &[u8], longest: u32) -> impl Iterator<Item = Vec<u8>> + '_ {
        let of_length = |length| (0..bytes.len().pow(length)).map(move |index| (length, index));
        (0..=longest).flat_map(of_length).map(|(length, index)| {
            (0..length).map(|place| bytes[index / bytes.len().pow(place) % bytes.len()]).collect()
        })
    }

    /// Texts by their lengths, one part after the other.
    fn joined(first: [usize; 7], second: [usize; 7]) -> [usize; 7] {
        std::array::from_fn(|length| (0..=length).map(|some| first[some] * second[length - some]).sum())
    }

    /// So many of all short texts have the form as its parts make up: over two digits, two signs and two letters there are three signs
    /// with none, 2^n runs of n digits, and so on.
    #[test]
    fn every_short_text() {
        let sign = [1, 2, 0, 0, 0, 0, 0];
        let digits = [0, 2, 4, 8, 16, 32, 64];
        let fraction = [1, 0, 2, 4, 8, 16, 32];
        // A letter, a sign or none, one digit or two.
        let exponent = [1, 0, 2 * 2, 2 * 4 + 2 * 2 * 2, 2 * 2 * 4, 0, 0];
        let expected = joined(joined(sign, digits), joined(fraction, exponent));
        let mut found = [0; 7];
        for text in texts(b"+-.eE07 ", 6) {
            let refusal = read(&text).err().map(|refusal| refusal.number);
            assert_eq!(refusal == Some(16), parts(&text).is_none(), "{}", text.escape_ascii());
            found[text.len()] += usize::from(refusal != Some(16));
        }
        assert_eq!(found, expected);
    }

    /// All that have the form, listed by hand.
    #[test]
    fn the_form() {
        let good = |text: &Vec<u8>| read(text).is_ok_and(|_| parts(text).is_some());
        let mut found: Vec<String> =
            texts(b"-.e5", 4).filter(good).map(|text| String::from_utf8_lossy(&text).into_owned()).collect();
        found.sort();
        let mut listed = [
            "5", "55", "555", "5555", "-5", "-55", "-555", "5.5", "55.5", "5.55", "-5.5", "5e5", "55e5", "5e-5", "-5e5",
        ];
        listed.sort_unstable();
        assert_eq!(found, listed);
        // 5e55 has the form too, but is no decimal.
        assert!(parts(b"5e55").is_some() && read(b"5e55") == Err(OUTSIDE));
    }

    #[test]
    fn the_reason_is_told() {
        for (text, refusal) in [
            ("", LENGTH),
            ("0000000000000000000000000000000000000000 ", LENGTH),
            ("1 ", FORM),
            ("1e-7", PART),
            ("1e13", OUTSIDE),
            ("1000000000001", OUTSIDE),
            // Both at once.
            ("1000000000001.0000001", PART),
        ] {
            assert_eq!(read(text.as_bytes()), Err(refusal), "{text}");
        }
    }

    #[test]
    fn both_ways_agree() {
        let mut state = 1u64;
        let mut draw = |n: u64| {
            state = state.wrapping_mul(6364136223846793005).wrapping_add(1442695040888963407);
            (state >> 33) % n
        };
        let mut counts = std::collections::BTreeMap::new();
        for _ in 0..200_000 {
            let mut digits = |most| {
                let zeros = draw(2) * draw(most);
                let some = 1 + draw(most);
                (0..zeros).map(|_| '0').chain((0..some).map(|_| (b'0' + draw(10) as u8) as char)).collect::<String>()
            };
            let (whole, fraction, power) = (digits(14), digits(8), digits(2));
            let sign = |n: u64| ["", "+", "-"][n as usize];
            let point = if draw(2) == 0 { String::new() } else { format!(".{fraction}") };
            let exponent = if draw(2) == 0 { String::new() } else { format!("e{}{power}", sign(draw(3))) };
            let text = format!("{}{whole}{point}{exponent}", sign(draw(3)));
            let why = read(text.as_bytes()).map_or_else(|refusal| refusal.why, |_| "");
            *counts.entry(why).or_insert(0) += 1;
        }
        assert!(counts.len() == 5 && counts.values().all(|count| *count > 200), "{counts:?}");
    }
}
