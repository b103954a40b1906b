//! The texts of numbers: engines that read them otherwise are found, also where two of them are wrong alike, by what each owes by itself.

use compare::call::engine::{fast, plain, Second, Ways};
use compare::call::number::{Read, Text};
use compare::call::Engine;
use compare::draw::numbers::text;
use compare::judge::numbers::{judge, str_text};
use compare::judge::Breach;
use compare::run::Plan;
use second::number::{self, parts, Parts, Reading};
use second::refusal::{refuse, Refusal};
use second::seek::Seek;
use second::term::Term;
use willetcoffer::limits::{DECIMAL_LIMIT, INTEGER_LIMIT, NUMBER_RECORD_WIDTH, NUMBER_TEXT_LIMIT};
use wrong::{breach_of, compare, each_found, Instead, Reads, FAST};

mod wrong;

const SEED: u64 = 16;
/// Enough for each wrong engine; the gate has as many.
const TEXTS: u64 = 20_000;

/// The first breach.
fn breach(engines: [&dyn Engine; 2]) -> Option<Breach> {
    breach_of::<Text>(SEED, TEXTS, engines)
}

type Outcome = Result<Term, Refusal>;

fn reading(reading: Reading) -> Second<Seek> {
    fast().by(Ways { reading, ..Ways::FAST })
}

/// Each is found against the right one, and by this breach where both read so.
fn found(alike: Breach, wrong: &[(&str, Reading)]) {
    each_found(breach, wrong.iter().map(|(name, wrong)| (*name, reading(*wrong), alike)));
}

#[test]
fn the_right_ways_pass() {
    assert_eq!(breach([&fast(), &plain()]), None);
}

fn read(text: &[u8]) -> Outcome {
    number::plain(text)
}

/// Reads what another text is, where that is given.
fn as_if(text: &[u8], other: Option<Vec<u8>>) -> Outcome {
    read(other.as_deref().unwrap_or(text))
}

/// The text with this put in at some place.
fn with(text: &[u8], at: usize, more: &[u8]) -> Vec<u8> {
    [&text[..at], more, &text[at..]].concat()
}

fn letter(text: &[u8]) -> Option<usize> {
    text.iter().position(|byte| b"eE".contains(byte))
}

fn point(text: &[u8]) -> Option<usize> {
    text.iter().position(|byte| *byte == b'.')
}

fn bare(text: &[u8]) -> &[u8] {
    text.strip_prefix(b"+").or(text.strip_prefix(b"-")).unwrap_or(text)
}

/// Texts that have not the form are taken.
#[test]
fn other_forms_that_are_taken() {
    fn no_digit_before_the_point(text: &[u8]) -> Outcome {
        as_if(text, bare(text).starts_with(b".").then(|| with(text, text.len() - bare(text).len(), b"0")))
    }
    fn no_digit_after_the_point(text: &[u8]) -> Outcome {
        let at = point(text).filter(|at| !text.get(at + 1).is_some_and(u8::is_ascii_digit));
        as_if(text, at.map(|at| with(text, at + 1, b"0")))
    }
    fn exponent_of_any_length(text: &[u8]) -> Outcome {
        let Some((start, power)) = letter(text).map(|at| text.split_at(at + 1)) else { return read(text) };
        let (sign, digits) = power.split_at(power.len() - bare(power).len());
        let zeros = digits.iter().take_while(|digit| **digit == b'0').count().min(digits.len().saturating_sub(1));
        read(&[start, sign, &digits[zeros..]].concat())
    }
    let wrong: [(&str, Reading); 9] = [
        (".5", no_digit_before_the_point),
        ("5.", no_digit_after_the_point),
        ("1e005", exponent_of_any_length),
        ("1e", |text| as_if(text, text.ends_with(b"e").then(|| with(text, text.len(), b"0")))),
        ("a blank in front or behind", |text| read(text.trim_ascii())),
        ("--5", |text| as_if(text, text.strip_prefix(b"--").map(|rest| with(rest, 0, b"-")))),
        ("a zero byte at the end", |text| read(text.strip_suffix(b"\0").unwrap_or(text))),
        ("nothing as zero", |text| as_if(text, text.is_empty().then(|| b"0".to_vec()))),
        ("41 bytes", |text| parts(text).map_or(read(text), |parts| parts.term())),
    ];
    found(Breach::Written, &wrong);
}

/// Texts that have the form are refused.
#[test]
fn the_form_that_is_refused() {
    fn unless(refused: bool, text: &[u8]) -> Outcome {
        if refused {
            refuse(16, "")
        } else {
            read(text)
        }
    }
    let wrong: [(&str, Reading); 10] = [
        ("E", |text| unless(text.contains(&b'E'), text)),
        ("e", |text| unless(text.contains(&b'e'), text)),
        ("a plus in front", |text| unless(text.starts_with(b"+"), text)),
        ("a plus after e", |text| unless(text.windows(2).any(|two| two == b"e+"), text)),
        ("zeros in front", |text| unless(bare(text).len() > 1 && bare(text)[0] == b'0', text)),
        ("zeros in front of digits", |text| unless(bare(text).starts_with(b"00"), text)),
        ("40 bytes", |text| unless(text.len() >= NUMBER_TEXT_LIMIT, text)),
        ("one byte", |text| unless(text.len() <= 1, text)),
        ("two digits after e", |text| unless(letter(text).is_some_and(|at| bare(&text[at + 1..]).len() > 1), text)),
        ("a point and an exponent", |text| unless(point(text).is_some() && letter(text).is_some(), text)),
    ];
    found(Breach::Written, &wrong);
}

/// The value as a floating-point number has it, in millionths.
fn floating(text: &[u8]) -> f64 {
    std::str::from_utf8(text).ok().and_then(|text| text.parse::<f64>().ok()).unwrap_or(0.0) * 1e6
}

/// Values that are not exact.
#[test]
fn values_that_are_not_exact() {
    /// Where a part of a millionth is left, what is made of it.
    fn instead(text: &[u8], rounded: fn(f64) -> f64) -> Outcome {
        let part = parts(text).is_some_and(|parts| parts.count().is_none());
        match read(text) {
            Err(Refusal { number: 17, .. }) if part && floating(text).abs() < DECIMAL_LIMIT as f64 => {
                Ok(Term::Dec(rounded(floating(text)) as i64))
            }
            read => read,
        }
    }
    fn by_floating(text: &[u8]) -> Outcome {
        match read(text) {
            Ok(Term::Dec(_)) => Ok(Term::Dec(floating(text).round() as i64)),
            read => read,
        }
    }
    /// An integer's digits as a number of so many bits, which comes round.
    fn coming_round(text: &[u8], bits: u32) -> Outcome {
        let Some(Parts { sign: None, whole, fraction: None, exponent: None }) = parts(text) else { return read(text) };
        let next = |sum: u128, digit: &u8| sum.wrapping_mul(10).wrapping_add(u128::from(digit - b'0'));
        let sum = whole.iter().fold(0, |sum, digit| next(sum, digit) & u128::MAX >> (128 - bits));
        read(if text.len() > NUMBER_TEXT_LIMIT { text.to_vec() } else { sum.to_string().into_bytes() }.as_slice())
    }
    let wrong: [(&str, Reading); 6] = [
        ("1e-7 as 0", |text| instead(text, f64::trunc)),
        ("rounded", |text| instead(text, f64::round)),
        ("floating-point numbers", by_floating),
        ("numbers of 64 bits", |text| coming_round(text, 64)),
        ("numbers of 128 bits", |text| coming_round(text, 128)),
        ("1e-7 as 1e-6", |text| instead(text, |millionths| millionths.signum() * millionths.abs().ceil())),
    ];
    found(Breach::Written, &wrong);
}

/// Values that are exact are refused, for what they are on the way or for their looks.
#[test]
fn values_that_are_refused() {
    fn unless(text: &[u8], refused: fn(&Parts) -> bool) -> Outcome {
        match parts(text) {
            Some(parts) if text.len() <= NUMBER_TEXT_LIMIT && refused(&parts) => refuse(17, ""),
            _ => read(text),
        }
    }
    fn significant(parts: &Parts) -> usize {
        let digits = [parts.whole, parts.fraction.unwrap_or(b"")].concat();
        digits.iter().skip_while(|digit| **digit == b'0').count()
    }
    fn zero_far_up(parts: &Parts) -> bool {
        let far = |digits: &[u8]| digits.len() == 2 && digits[0] > b'1';
        significant(parts) == 0 && parts.exponent.is_some_and(|exponent| far(exponent.digits))
    }
    let wrong: [(&str, Reading); 5] = [
        ("more than 19 digits", |text| unless(text, |parts| significant(parts) > 19)),
        ("more than 19 digits, with zeros in front", |text| unless(text, |parts| parts.whole.len() > 19)),
        ("seven places", |text| unless(text, |parts| parts.fraction.is_some_and(|digits| digits.len() > 6))),
        ("zero with a large exponent", |text| unless(text, zero_far_up)),
        ("minus zero", |text| unless(text, |parts| parts.sign == Some(b'-') && significant(parts) == 0)),
    ];
    found(Breach::Written, &wrong);
}

/// Limits that are off by one, each way.
#[test]
fn limits_off_by_one() {
    /// As if the limits of integers, or else decimals, lay so much further below and above.
    fn limited(text: &[u8], decimals: bool, further: [i64; 2]) -> Outcome {
        let Some(parts) = parts(text).filter(|parts| parts.is_decimal() == decimals) else { return read(text) };
        let limit = if decimals { DECIMAL_LIMIT } else { INTEGER_LIMIT };
        match parts.count().and_then(|count| count.to_i64()) {
            Some(count) if text.len() <= NUMBER_TEXT_LIMIT => {
                let count = if parts.sign == Some(b'-') { -count } else { count };
                let fits = (-limit - further[0]..=limit + further[1]).contains(&count);
                let term = if decimals { Term::Dec(count) } else { Term::Int(count) };
                fits.then_some(term).ok_or(Refusal { number: 17, why: "" })
            }
            _ => read(text),
        }
    }
    assert_eq!(
        breach([&reading(|text| limited(text, true, [0, 0])), &reading(|text| limited(text, false, [0, 0]))]),
        None
    );
    let more: [(&str, Reading); 4] = [
        ("integers above", |text| limited(text, false, [0, 1])),
        ("integers below", |text| limited(text, false, [1, 0])),
        ("decimals above", |text| limited(text, true, [0, 1])),
        ("decimals below", |text| limited(text, true, [1, 0])),
    ];
    found(Breach::Record, &more);
    let less: [(&str, Reading); 4] = [
        ("integers above, one less", |text| limited(text, false, [0, -1])),
        ("integers below, one less", |text| limited(text, false, [-1, 0])),
        ("decimals above, one less", |text| limited(text, true, [0, -1])),
        ("decimals below, one less", |text| limited(text, true, [-1, 0])),
    ];
    found(Breach::Written, &less);
}

/// Refusals in another order, and signs that are not seen.
#[test]
fn other_refusals_and_signs() {
    /// 17 for what stands in front, whatever follows.
    fn value_before_form(text: &[u8]) -> Outcome {
        let front = (1..=text.len()).rev().map(|end| &text[..end]).find(|front| parts(front).is_some());
        front.map(read).filter(|read| read.is_err_and(|refusal| refusal.number == 17)).unwrap_or(read(text))
    }
    /// 17 for a value that is none, then 16 for the length.
    fn value_before_length(text: &[u8]) -> Outcome {
        parts(text).map_or(read(text), |parts| parts.term().and_then(|_| read(text)))
    }
    fn exponent_without_sign(text: &[u8]) -> Outcome {
        let other = String::from_utf8_lossy(text).replace("e-", "e").replace("E-", "E");
        read(other.as_bytes()).or(read(text))
    }
    let wrong: [(&str, Reading); 5] = [
        ("17 before 16, for the form", value_before_form),
        ("17 before 16, for the length", value_before_length),
        ("16 for 17", |text| read(text).or(refuse(16, ""))),
        ("a minus in front", |text| as_if(text, text.strip_prefix(b"-").map(<[u8]>::to_vec))),
        ("an exponent's minus", exponent_without_sign),
    ];
    found(Breach::Written, &wrong);
}

/// Numbers of the other kind, and one that no record has.
#[test]
fn other_kinds() {
    fn whole_as_integer(text: &[u8]) -> Outcome {
        match read(text) {
            Ok(Term::Dec(count)) if count % 1_000_000 == 0 => Ok(Term::Int(count / 1_000_000)),
            read => read,
        }
    }
    fn integer_as_decimal(text: &[u8]) -> Outcome {
        as_if(text, parts(text).filter(|parts| !parts.is_decimal()).map(|_| with(text, text.len(), b".0")))
    }
    /// The sign bit alone, as floating-point numbers have it.
    fn minus_zero_apart(text: &[u8]) -> Outcome {
        match read(text) {
            Ok(Term::Int(0)) if text[0] == b'-' => Ok(Term::Int(i64::MIN)),
            Ok(Term::Dec(0)) if text[0] == b'-' => Ok(Term::Dec(i64::MIN)),
            read => read,
        }
    }
    let wrong: [(&str, Reading); 4] = [
        ("3.0 as an integer", whole_as_integer),
        ("3e0 as an integer", |text| if point(text).is_some() { read(text) } else { whole_as_integer(text) }),
        ("3 as a decimal", integer_as_decimal),
        ("minus zero kept apart", minus_zero_apart),
    ];
    found(Breach::Record, &wrong);
}

/// The law: a text that reads as a number, of which the text that str gives is read as another, or not at all.
#[test]
fn what_str_gives_is_read_otherwise() {
    let as_integer: Reading = |text| as_if(text, (text == b"0.0").then(|| b"0".to_vec()));
    let refused: Reading = |text| if text == b"0.0" { refuse(17, "") } else { read(text) };
    let zero = Text { bytes: b"-0.00e5".to_vec(), record: NUMBER_RECORD_WIDTH, due: None };
    assert_eq!(judge(&zero, [&fast(), &plain()]).map(|read| read.term()).ok(), Some(Some(Term::Dec(0))));
    for wrong in [as_integer, refused].map(reading) {
        for engines in [[&fast() as &dyn Engine, &wrong], [&wrong, &wrong]] {
            assert_eq!(judge(&zero, engines).map_err(|difference| difference.breach), Err(Breach::Again));
            assert!(breach(engines).is_some());
        }
    }
}

/// What the right call gives with a record of the right length.
fn called(text: &[u8]) -> u32 {
    fast().number(text, &mut [0; NUMBER_RECORD_WIDTH])
}

/// The right call; where it gives this number, the record is altered.
fn altered(text: &[u8], record: &mut [u8], number: u32, alter: fn(&mut [u8])) -> u32 {
    let code = fast().number(text, record);
    if code == number {
        alter(record);
    }
    code
}

#[test]
fn wrong_records_are_found() {
    let wrong: [(&str, Reads, Breach); 10] = [
        ("touched on 17", |text, record| altered(text, record, 17, |record| record[0] = 0x14), Breach::Kept),
        ("touched on 16", |text, record| altered(text, record, 16, |record| record[8] = 0), Breach::Kept),
        ("cleared on 1", |text, record| altered(text, record, 1, |record| record.fill(0)), Breach::Kept),
        ("the highest byte first", |text, record| altered(text, record, 0, |r| r[1..].reverse()), Breach::Record),
        ("a page record's kind", |text, record| altered(text, record, 0, |r| r[0] += 0x70), Breach::Record),
        ("the lower four bytes", |text, record| altered(text, record, 0, |r| r[5..].fill(0)), Breach::Written),
        ("not written", |text, record| altered(text, record, 0, |r| r.fill(0xaa)), Breach::Record),
        (
            "a longer one is taken",
            |text, record| {
                let length = record.len();
                fast().number(
                    text,
                    if length > NUMBER_RECORD_WIDTH { &mut record[..NUMBER_RECORD_WIDTH] } else { record },
                )
            },
            Breach::Lent,
        ),
        (
            "none is taken",
            |text, record| if record.is_empty() { called(text) } else { fast().number(text, record) },
            Breach::Lent,
        ),
        (
            "16 and 17 before 1",
            |text, record| match called(text) {
                0 => fast().number(text, record),
                code => code,
            },
            Breach::Lent,
        ),
    ];
    each_found(breach, wrong.into_iter().map(|(name, number, alike)| (name, Instead { number, ..FAST }, alike)));
}

const PLAN: Plan = Plan { seed: SEED, numbers: TEXTS, ..Plan::NONE };

/// As many texts as the gate reads meet everything that is required, and without texts all of it is missing.
#[test]
fn all_that_is_required_is_met() {
    let engine = fast();
    let mut compare = compare([&engine, &engine]);
    let required = compare.coverage.missing_of_numbers();
    assert!(required.len() > 50 && required.iter().all(|missing| missing.ends_with(": 0 of 100")), "{required:?}");
    assert_eq!((compare.inputs::<Text>(&PLAN), compare.coverage.missing_of_numbers()), (0, Vec::new()));
}

/// A text is what its seed and index make it, and what it was written for is what it says: a third way to know what is right.
#[test]
fn texts_are_written_for_what_they_are() {
    let [mut numbers, mut refused] = [0; 2];
    for index in 0..TEXTS {
        let text = text(SEED, index);
        assert_eq!(text, compare::draw::numbers::text(SEED, index));
        match text.due {
            Some(Ok(number)) => {
                assert_eq!(number::fast(&text.bytes), Ok(number));
                assert_eq!(number::fast(&str_text(number)), Ok(number));
                numbers += 1;
            }
            Some(Err(code)) => {
                assert_eq!(number::fast(&text.bytes).map_err(|refusal| refusal.number), Err(code));
                refused += 1;
            }
            None => {}
        }
    }
    assert!(numbers > 5_000 && refused > 5_000, "{numbers} {refused}");
}

/// A difference is cut down to what shows it.
#[test]
fn a_text_is_cut_down() {
    let (first, wrong) = (fast(), reading(|text| if text.contains(&b'E') { refuse(16, "") } else { read(text) }));
    let mut compare = compare([&first, &wrong]);
    assert_eq!(compare.inputs::<Text>(&PLAN), 1);
    let long = Text { bytes: b"-0012.500E+03".to_vec(), record: NUMBER_RECORD_WIDTH, due: None };
    let difference = compare.input(&long).expect_err("an E is refused");
    let told = compare.smaller_input(&long, &difference);
    let lines: Vec<&str> = told.lines().map(str::trim).collect();
    assert_eq!(lines[..3], ["smaller, 3 bytes of 13:", "number \"0E0\", 3 bytes", "a record of 9 bytes"], "{told}");
    assert!(
        lines[3].starts_with("second: 0, record [14, ") && lines[4].starts_with("second: 16, record [aa, "),
        "{told}"
    );
}

/// An engine that panics is found, and its text cut down too.
#[test]
fn a_panic_is_cut_down() {
    let first = fast();
    let number: Reads = |text, record| {
        assert!(!text.contains(&b'.'), "a point");
        fast().number(text, record)
    };
    let wrong = Instead { number, ..FAST };
    let compare = compare([&first, &wrong]);
    let long = Text { bytes: b"12.5".to_vec(), record: 8, due: None };
    let difference = compare.input(&long).expect_err("a panic");
    assert_eq!(difference.breach, Breach::Panic);
    let told = compare.smaller_input(&long, &difference);
    assert!(told.contains("number \".\", 1 bytes") && told.contains("wrong: a panic"), "{told}");
}

/// What a reading tells of its record: a number of either kind, and nothing of another term's, a longer one or a refusal.
#[test]
fn records_of_numbers() {
    let term = |code, record: Vec<u8>| Read { code, record }.term();
    assert_eq!(term(0, Term::Int(-3).record()), Some(Term::Int(-3)));
    assert_eq!(term(0, Term::Dec(5).record()), Some(Term::Dec(5)));
    assert_eq!(term(16, Term::Int(-3).record()), None);
    assert_eq!(term(0, Term::Time(5).record()), None);
    assert_eq!(term(0, [Term::Int(3).record(), vec![0]].concat()), None);
    assert_eq!(term(0, Term::Int(INTEGER_LIMIT + 1).record()), None);
    assert_eq!(term(0, Vec::new()), None);
}
