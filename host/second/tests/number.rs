//! Document 02, Ask 1: numbers as makers print them. What each row expects is worked out from the documents by hand.

mod common;
use common::ENGINES;
use second::limits::{DECIMAL, INTEGER, NUMBER_RECORD, NUMBER_TEXT};
use second::term::{trim, Term};
use second::value::Value;
use Term::{Dec, Int};

/// What both engines read, which must agree; a refusal must leave the record.
fn read(text: impl AsRef<[u8]>) -> Result<Term, u32> {
    let [fast, plain] = ENGINES.map(|engine| {
        let mut record = [0xaa; NUMBER_RECORD];
        let outcome = engine.number(text.as_ref(), &mut record).map_err(|refusal| refusal.number);
        assert!(outcome.is_ok() || record == [0xaa; NUMBER_RECORD], "{outcome:?} {record:x?}");
        outcome.map(|()| record)
    });
    assert_eq!(fast, plain);
    fast.map(|record| Term::read(&record).expect("a term's record").0)
}

fn rows(rows: &[(&str, Result<Term, u32>)]) {
    for (text, expected) in rows {
        assert_eq!(read(text), *expected, "{text}");
    }
}

/// The request's own examples, and those of the settled readings.
#[test]
fn document_02() {
    rows(&[
        ("0.999e2", Ok(Dec(99_900_000))),
        ("-3", Ok(Int(-3))),
        ("1e-7", Err(17)),
        ("-0", Ok(Int(0))),
        ("-0.0", Ok(Dec(0))),
        ("0e99", Ok(Dec(0))),
        ("100000000000000000000e-20", Ok(Dec(1_000_000))),
        (".5", Err(16)),
        ("5.", Err(16)),
        ("1e", Err(16)),
        ("1e123", Err(16)),
        (" ", Err(16)),
        ("3 ", Err(16)),
        (" 3", Err(16)),
        ("", Err(16)),
    ]);
}

/// The record, byte for byte: the kind, then eight bytes, the lowest first, in two's complement.
#[test]
fn bytes_of_the_record() {
    for engine in ENGINES {
        let read = |text: &str| {
            let mut record = [0xaa; NUMBER_RECORD];
            assert_eq!(engine.number(text.as_bytes(), &mut record), Ok(()));
            record
        };
        assert_eq!(read("3"), [0x13, 3, 0, 0, 0, 0, 0, 0, 0]);
        assert_eq!(read("-3"), [0x13, 0xfd, 0xff, 0xff, 0xff, 0xff, 0xff, 0xff, 0xff]);
        // 99,900,000 is 5 F4 5A 60 in hexadecimal.
        assert_eq!(read("0.999e2"), [0x14, 0x60, 0x5a, 0xf4, 0x05, 0, 0, 0, 0]);
        assert_eq!(read("-0"), [0x13, 0, 0, 0, 0, 0, 0, 0, 0]);
        assert_eq!(read("-0e-0"), [0x14, 0, 0, 0, 0, 0, 0, 0, 0]);
        // 10^12 is E8 D4 A5 10 00, 10^18 is 0D E0 B6 B3 A7 64 00 00.
        assert_eq!(read("1000000000000"), [0x13, 0x00, 0x10, 0xa5, 0xd4, 0xe8, 0, 0, 0]);
        assert_eq!(read("1e12"), [0x14, 0x00, 0x00, 0x64, 0xa7, 0xb3, 0xb6, 0xe0, 0x0d]);
    }
}

/// XML Schema part 2, second edition: the examples that it gives of lexical forms. What is longer than our limits allow meets 17.
#[test]
fn xml_schema_examples() {
    // 3.3.13 integer, 3.3.16 long, 3.3.17 int, 3.3.18 short, 3.3.19 byte, 3.3.20 nonNegativeInteger, 3.3.15 negativeInteger.
    rows(&[
        ("-1", Ok(Int(-1))),
        ("0", Ok(Int(0))),
        ("12678967543233", Err(17)),
        ("+100000", Ok(Int(100_000))),
        ("126789675", Ok(Int(126_789_675))),
        ("12678", Ok(Int(12_678))),
        ("+10000", Ok(Int(10_000))),
        ("126", Ok(Int(126))),
        ("+100", Ok(Int(100))),
        ("-12678967543233", Err(17)),
        ("-100000", Ok(Int(-100_000))),
    ]);
    // 3.2.3 decimal. Without a point it is an integer here.
    rows(&[
        ("-1.23", Ok(Dec(-1_230_000))),
        ("12678967.543233", Ok(Dec(12_678_967_543_233))),
        ("+100000.00", Ok(Dec(100_000_000_000))),
        ("210", Ok(Int(210))),
    ]);
    // 3.2.5 double.
    rows(&[
        ("-1E4", Ok(Dec(-10_000_000_000))),
        ("1267.43233E12", Err(17)),
        ("12.78e-2", Ok(Dec(127_800))),
        ("12", Ok(Int(12))),
        ("-0", Ok(Int(0))),
        ("0", Ok(Int(0))),
        ("INF", Err(16)),
        ("-INF", Err(16)),
        ("NaN", Err(16)),
    ]);
}

/// The grammar of XML Schema lets a decimal and a double begin or end with the point, and an exponent have any number of digits; white
/// space around them is left out before they are read. None of these has the form here.
#[test]
fn xml_schema_forms_that_are_none_here() {
    for text in [".5", "-.5", "+.5", "5.", "5.e3", ".5e3", "1.e-1", "1e003", "1E-006", "1e100", "\t1", "1\n", " 1 "] {
        assert_eq!(read(text), Err(16), "{text:?}");
    }
    // What it lets stand in front and behind is read by its value.
    rows(&[
        ("007", Ok(Int(7))),
        ("+0.50", Ok(Dec(500_000))),
        ("-00012.300", Ok(Dec(-12_300_000))),
        ("1.0E0", Ok(Dec(1_000_000))),
        ("1.0E+00", Ok(Dec(1_000_000))),
    ]);
}

/// As leaflets of decoders and meters have them: addresses, speed steps, volts, amperes, farads, seconds.
#[test]
fn leaflets() {
    rows(&[
        ("9999", Ok(Int(9_999))),
        ("0003", Ok(Int(3))),
        ("128", Ok(Int(128))),
        ("-40", Ok(Int(-40))),
        ("+85", Ok(Int(85))),
        ("14.5", Ok(Dec(14_500_000))),
        ("0.75", Ok(Dec(750_000))),
        ("22e-3", Ok(Dec(22_000))),
        ("470e-6", Ok(Dec(470))),
        ("4.70E-04", Ok(Dec(470))),
        ("1.5e+1", Ok(Dec(15_000_000))),
        ("12.0", Ok(Dec(12_000_000))),
        ("2.4E9", Ok(Dec(2_400_000_000_000_000))),
        // A hundred nanofarads have no whole count of millionths; ten thousand have.
        ("100e-9", Err(17)),
        ("10000e-9", Ok(Dec(10))),
        // With a unit, a comma, a range or an approximation they are no such text.
        ("14.5V", Err(16)),
        ("0,75", Err(16)),
        ("1,000", Err(16)),
        ("1 000", Err(16)),
        ("14-18", Err(16)),
        ("~12", Err(16)),
        ("0x1F", Err(16)),
        ("1e3e3", Err(16)),
        ("1.2.3", Err(16)),
    ]);
}

/// Each part in the places where it may stand, and where it may not.
#[test]
fn the_form() {
    let good = "7 +7 -7 7.7 +7.7 7e7 7E7 7e+7 7e-0 7E-05 7.7e1 -7.7E+01 77.77e02";
    assert_eq!(good.split(' ').find(|text| read(text).is_err()), None);
    let signs = "+ - +-7 --7 ++7 -+7 7+ 7- 7+7 7-7";
    let points = ". 7. .7 +.7 7..7 7.+7 7.-7 7.e7 7.7. 7.7.7";
    let exponents = "e E e7 +e7 .e7 7e 7e+ 7e- 7e--7 7e+-7 7ee7 7eE7 7e7.7 7e.7 7e7e7 7e007 7e777 7e7- 7f7 7d7 7p7";
    let others = "7,7 7_7 7'7 7\0 \u{0}7 7\u{b2} \u{663} \u{ff17} \u{2212}7 infinity seven 0b1 0o7";
    for text in [signs, points, exponents, others].into_iter().flat_map(|texts| texts.split(' ')) {
        assert_eq!(read(text), Err(16), "{text:?}");
    }
    for byte in 0..=255u8 {
        let expected = if byte.is_ascii_digit() { Ok(Int(i64::from(byte - b'0'))) } else { Err(16) };
        assert_eq!(read([byte]), expected, "{byte:x}");
        let after = if byte.is_ascii_digit() { Ok(Int(10 + i64::from(byte - b'0'))) } else { Err(16) };
        assert_eq!(read([b'1', byte]), after, "{byte:x}");
    }
}

/// With neither point nor exponent an integer, otherwise a decimal, whatever the value is.
#[test]
fn kinds() {
    rows(&[
        ("3", Ok(Int(3))),
        ("3.0", Ok(Dec(3_000_000))),
        ("3e0", Ok(Dec(3_000_000))),
        ("30E-1", Ok(Dec(3_000_000))),
        ("0.3e1", Ok(Dec(3_000_000))),
    ]);
}

/// At both limits of both kinds, and one unit past each, however it is written.
#[test]
fn limits() {
    assert_eq!((INTEGER, DECIMAL), (10i64.pow(12), 10i64.pow(18)));
    rows(&[
        ("1000000000000", Ok(Int(INTEGER))),
        ("+1000000000000", Ok(Int(INTEGER))),
        ("-1000000000000", Ok(Int(-INTEGER))),
        ("999999999999", Ok(Int(INTEGER - 1))),
        ("1000000000001", Err(17)),
        ("-1000000000001", Err(17)),
        ("9999999999999999999999999999999999999999", Err(17)),
        ("-999999999999999999999999999999999999999", Err(17)),
        // Two to the power of 64, of 63 and of 128 come round to 0 and less in numbers of so many bits.
        ("18446744073709551616", Err(17)),
        ("9223372036854775808", Err(17)),
        ("340282366920938463463374607431768211456", Err(17)),
        ("340282366920938463463374607431768211457", Err(17)),
    ]);
    for text in ["1000000000000.0", "1e12", "+0.1E13", "1000000000000000000e-6", "10000000e+05", "0.0000001e19"] {
        assert_eq!(read(text), Ok(Dec(DECIMAL)), "{text}");
        assert_eq!(read(format!("-{}", text.trim_start_matches('+'))), Ok(Dec(-DECIMAL)), "{text}");
    }
    for text in ["1000000000000.000001", "1000000000000000001e-6", "1.000000000000000001e12", "1000000000001.0", "1e13"]
    {
        assert_eq!(read(text), Err(17), "{text}");
        assert_eq!(read(format!("-{text}")), Err(17), "{text}");
    }
    rows(&[
        ("999999999999.999999", Ok(Dec(DECIMAL - 1))),
        ("-999999999999999999e-6", Ok(Dec(1 - DECIMAL))),
        ("9e99", Err(17)),
        ("-1e99", Err(17)),
        // 2^64 and 2^63 millionths.
        ("18446744073709.551616", Err(17)),
        ("9223372036854.775808", Err(17)),
        ("18446744073709551616e-6", Err(17)),
        ("1000000000001e0", Err(17)),
    ]);
}

/// Nothing is rounded: a value has a whole count of millionths, or no reading.
#[test]
fn exact() {
    rows(&[
        ("0.000001", Ok(Dec(1))),
        ("-0.000001", Ok(Dec(-1))),
        ("1e-6", Ok(Dec(1))),
        ("10e-7", Ok(Dec(1))),
        ("0.1e-5", Ok(Dec(1))),
        ("0.0000010000000000000000000", Ok(Dec(1))),
        ("0.0000001", Err(17)),
        ("0.0000009", Err(17)),
        ("0.0000005", Err(17)),
        ("1.0000001", Err(17)),
        ("-2.9999999", Err(17)),
        ("999999999999.9999999", Err(17)),
        ("1000000000000.0000001", Err(17)),
        ("1e-99", Err(17)),
        ("9999999e-7", Err(17)),
        ("10000000e-7", Ok(Dec(1_000_000))),
        // Not to be had by way of a binary fraction.
        ("0.1", Ok(Dec(100_000))),
        ("0.3", Ok(Dec(300_000))),
        ("4.35", Ok(Dec(4_350_000))),
        ("123456789012.345678", Ok(Dec(123_456_789_012_345_678))),
        ("-123456789012.345679", Ok(Dec(-123_456_789_012_345_679))),
    ]);
}

/// Zero is zero, with any sign and any exponent.
#[test]
fn zeros() {
    for sign in ["", "+", "-"] {
        for digits in ["0", "00", "0000000000000000000000000000000"] {
            assert_eq!(read(format!("{sign}{digits}")), Ok(Int(0)));
            for rest in [".0", ".0000000", "e0", "E99", "e-99", "e+00", ".0e-7", ".00E+13"] {
                assert_eq!(read(format!("{sign}{digits}{rest}")), Ok(Dec(0)), "{sign}{digits}{rest}");
            }
        }
    }
}

/// Exponents move the point, also far past all digits there are.
#[test]
fn exponents() {
    for (letter, plus) in [("e", ""), ("E", ""), ("e", "+"), ("E", "+")] {
        for power in 0..=12 {
            let expected = Ok(Dec(1_000_000 * 10i64.pow(power)));
            assert_eq!(read(format!("1{letter}{plus}{power}")), expected);
            assert_eq!(read(format!("1{letter}{plus}{power:02}")), expected);
        }
        assert_eq!(read(format!("1{letter}{plus}13")), Err(17));
    }
    for letter in ["e", "E"] {
        for power in 0..=6 {
            assert_eq!(read(format!("1{letter}-{power}")), Ok(Dec(10i64.pow(6 - power))));
        }
        assert_eq!(read(format!("1{letter}-7")), Err(17));
    }
    // 35 zeros taken away, and 35 places after the point brought back.
    assert_eq!(read(format!("1{}e-35", "0".repeat(35))), Ok(Dec(1_000_000)));
    assert_eq!(read(format!("0.{}1e35", "0".repeat(34))), Ok(Dec(1_000_000)));
    assert_eq!(read(format!("0.{}1e36", "0".repeat(34))), Ok(Dec(10_000_000)));
}

/// 40 bytes are read, 41 are not, whatever stands in them; and none is no text. 16 is told before 17.
#[test]
fn lengths_of_the_text() {
    let zeros = |count| "0".repeat(count);
    assert_eq!(NUMBER_TEXT, 40);
    for (text, expected) in [
        (zeros(40), Ok(Int(0))),
        (zeros(39) + "7", Ok(Int(7))),
        (format!("-{}7", zeros(38)), Ok(Int(-7))),
        (format!("0.{}", zeros(38)), Ok(Dec(0))),
        (format!("{}7.5", zeros(37)), Ok(Dec(7_500_000))),
        (format!("7.5{}", zeros(37)), Ok(Dec(7_500_000))),
        (format!("{}7e-6", zeros(36)), Ok(Dec(7))),
        (format!("{}7E+05", zeros(35)), Ok(Dec(700_000_000_000))),
        ("9".repeat(40), Err(17)),
        (format!("{}e99", "9".repeat(37)), Err(17)),
        (format!("0.{}1", zeros(37)), Err(17)),
    ] {
        assert_eq!((text.len(), read(&text)), (40, expected), "{text}");
        // One byte more that leaves form and value as they are.
        let sign = text.len() - text.trim_start_matches('-').len();
        let longer = format!("{}0{}", &text[..sign], &text[sign..]);
        assert_eq!((longer.len(), read(&longer)), (41, Err(16)), "{longer}");
    }
    assert_eq!(
        (read(""), read(zeros(41)), read(zeros(1000)), read("9".repeat(41))),
        (Err(16), Err(16), Err(16), Err(16))
    );
}

/// A record of another length meets 1, before 16 and 17; 16 comes before 17.
#[test]
fn lengths_of_the_record() {
    for engine in ENGINES {
        for width in [0, 1, 8, 10, 40, 49] {
            for text in ["3", "3 ", "1e99", ""] {
                let mut record = vec![0xaa; width];
                assert_eq!(engine.number(text.as_bytes(), &mut record).map_err(|refusal| refusal.number), Err(1));
                assert_eq!(record, vec![0xaa; width]);
            }
        }
    }
    rows(&[("1e99 ", Err(16)), ("1e-7x", Err(16)), ("10000000000000.", Err(16)), ("+1e99+", Err(16))]);
}

/// The text that str gives for a number.
fn str(term: Term) -> Vec<u8> {
    match Value::from(&term).str() {
        Value::Str(Some((_, text))) => trim(&text).to_vec(),
        other => panic!("{other:?}"),
    }
}

/// "Where a text reads as a term, str's text for that term reads as the same term": so it does for every integer and decimal, and each
/// is read from some text, its own.
#[test]
fn what_str_gives_reads_as_the_term() {
    let mut state = 12u64;
    let mut draw = || {
        state = state.wrapping_mul(6364136223846793005).wrapping_add(1442695040888963407);
        (state >> 1) as i64
    };
    let mut counts: Vec<i64> = (0..=18).flat_map(|power| [-1, 0, 1].map(|more| 10i64.pow(power) + more)).collect();
    counts.retain(|count| *count <= DECIMAL);
    counts.extend((0..20_000).map(|_| draw() % (DECIMAL + 1)));
    counts.extend((0..20_000).map(|place| draw() % 10i64.pow(place % 19)));
    for count in counts.into_iter().flat_map(|count| [count, -count]) {
        assert_eq!(read(str(Dec(count))), Ok(Dec(count)));
        if count.abs() <= INTEGER {
            assert_eq!(read(str(Int(count))), Ok(Int(count)));
        }
    }
}
