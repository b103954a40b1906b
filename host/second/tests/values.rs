//! Values: the rows of `str`, sums and limits, comparisons, calendar vectors.

use second::limits::{DECIMAL, INTEGER};
use second::rank::{self, Lent, BUILT_IN};
use second::term::Term;
use second::value::Value;
use second::write::{string, tagged, uri};
use std::cmp::Ordering;

fn text(value: Value) -> String {
    match value {
        Value::Str(Some((tag, text))) => {
            assert_eq!(tag, [0; 8], "str gives no tag");
            String::from_utf8(second::term::trim(&text).to_vec()).unwrap()
        }
        other => panic!("{other:?}"),
    }
}

#[test]
fn str_rows() {
    let str = |term: Term| text(Value::from(&term).str());
    assert_eq!(str(uri("http://a/b")), "http://a/b");
    assert_eq!(str(tagged("en-gb", "a b")), "a b");
    assert_eq!(str(string("")), "");
    for (n, expected) in [(-3, "-3"), (0, "0"), (INTEGER, "1000000000000"), (-INTEGER, "-1000000000000")] {
        assert_eq!(str(Term::Int(n)), expected);
    }
    for (n, expected) in [
        (-500_000, "-0.5"),
        (3_000_000, "3.0"),
        (0, "0.0"),
        (1, "0.000001"),
        (-1, "-0.000001"),
        (10_500_000, "10.5"),
        (1_000_010, "1.00001"),
        (DECIMAL, "1000000000000.0"),
        (-DECIMAL, "-1000000000000.0"),
        (DECIMAL - 1, "999999999999.999999"),
    ] {
        assert_eq!(str(Term::Dec(n)), expected);
    }
}

#[test]
fn sums_and_limits() {
    let int = |n| Value::Int(Some(n));
    let dec = |n| Value::Dec(Some(n));
    let plus = |a: Value, b: Value| a.arithmetic(&b, |a, b| a + b);
    let minus = |a: Value, b: Value| a.arithmetic(&b, |a, b| a - b);
    assert_eq!(plus(int(2), int(3)), Some(int(5)));
    assert_eq!(plus(int(2), dec(500_000)), Some(dec(2_500_000)));
    assert_eq!(minus(dec(500_000), int(2)), Some(dec(-1_500_000)));
    assert_eq!(plus(int(INTEGER), int(0)), Some(int(INTEGER)));
    assert_eq!(plus(int(INTEGER), int(1)), Some(Value::Int(None)));
    assert_eq!(minus(int(-INTEGER), int(1)), Some(Value::Int(None)));
    assert_eq!(plus(int(INTEGER), dec(0)), Some(dec(DECIMAL)));
    assert_eq!(plus(int(INTEGER), dec(1)), Some(Value::Dec(None)));
    assert_eq!(minus(dec(-DECIMAL), dec(DECIMAL)), Some(Value::Dec(None)));
    // No value again, of their kind.
    assert_eq!(plus(Value::Int(None), int(-1)), Some(Value::Int(None)));
    assert_eq!(plus(Value::Int(None), dec(0)), Some(Value::Dec(None)));
    assert_eq!(minus(dec(0), Value::Int(None)), Some(Value::Dec(None)));
    assert_eq!(Value::Int(None).abs(), Some(Value::Int(None)));
    assert_eq!(Value::Dec(None).str(), Value::Str(None));
    assert_eq!(Value::Str(None).str(), Value::Str(None));
    assert_eq!((int(-3).abs(), dec(-1).abs(), dec(7).abs()), (Some(int(3)), Some(dec(1)), Some(dec(7))));
    // Faults go by kind.
    for other in [Value::Str(None), Value::Time(0), Value::from(&uri("u"))] {
        assert_eq!(plus(Value::Int(None), other), None);
        assert_eq!(plus(other, dec(1)), None);
        assert_eq!(other.abs(), None);
    }
}

/// A result past a limit of its kind, by one or by as much as can be, is no value of that kind; at the limit it is a value.
#[test]
fn overflow_at_both_limits() {
    type Kind = fn(Option<i64>) -> Value;
    let kinds: [(Kind, i64); 2] = [(Value::Int, INTEGER), (Value::Dec, DECIMAL)];
    let plus = |a: Value, b: Value| a.arithmetic(&b, |a, b| a + b);
    let minus = |a: Value, b: Value| a.arithmetic(&b, |a, b| a - b);
    for (kind, limit) in kinds {
        let value = |n| kind(Some(n));
        let (none, top, bottom) = (Some(kind(None)), value(limit), value(-limit));
        assert_eq!([plus(value(limit - 1), value(1)), minus(value(limit - 1), value(-1))], [Some(top); 2]);
        assert_eq!([plus(value(1 - limit), value(-1)), minus(value(1 - limit), value(1))], [Some(bottom); 2]);
        assert_eq!([plus(top, value(1)), plus(value(1), top), minus(top, value(-1))], [none; 3]);
        assert_eq!([plus(bottom, value(-1)), plus(value(-1), bottom), minus(bottom, value(1))], [none; 3]);
        assert_eq!([plus(top, top), plus(bottom, bottom), minus(top, bottom), minus(bottom, top)], [none; 4]);
        assert_eq!([plus(top, bottom), minus(top, top), minus(bottom, bottom)], [Some(value(0)); 3]);
        // str and abs of such a sum, and no way back.
        let over = kind(None);
        assert_eq!((over.str(), over.abs(), over.str().str()), (Value::Str(None), none, Value::Str(None)));
        assert_eq!([minus(over, over), plus(over, bottom), minus(value(0), over)], [none; 3]);
    }
}

/// The order of two values by the built-in ranks: exactly one of less, equal, and less the other way round.
fn order(a: &Value, b: &Value) -> Option<Option<Ordering>> {
    let lent = Lent { ranks: &BUILT_IN, alphabet: rank::PLAIN };
    let tests = [a.less(b, &lent), a.equal(b), b.less(a, &lent)];
    let three = [Ordering::Less, Ordering::Equal, Ordering::Greater];
    assert!(tests.iter().all(|test| test.is_some() == tests[0].is_some()), "{a:?} {b:?}");
    let [less, equal, greater] = tests.map(|test| test.flatten());
    assert!(less.is_some() == equal.is_some() && less.is_some() == greater.is_some(), "{a:?} {b:?}");
    let mut holds = three.into_iter().zip([less, equal, greater]).filter(|(_, test)| *test == Some(true));
    let found = holds.next().map(|(order, _)| order);
    assert!(holds.next().is_none() && found.is_some() == less.is_some(), "{a:?} {b:?}");
    tests[0].map(|_| found)
}

#[test]
fn comparisons() {
    let compare = |a: Term, b: Term| order(&Value::from(&a), &Value::from(&b)).map(|o| o.unwrap());
    assert_eq!(compare(Term::Int(3), Term::Dec(3_000_000)), Some(Ordering::Equal));
    assert_eq!(compare(Term::Int(-3), Term::Dec(-2_999_999)), Some(Ordering::Less));
    assert_eq!(compare(Term::Time(5), Term::Time(4)), Some(Ordering::Greater));
    assert_eq!(compare(tagged("en", "a"), tagged("en", "a")), Some(Ordering::Equal));
    assert_eq!(compare(tagged("en", "a"), string("a")), Some(Ordering::Greater));
    assert_eq!(compare(tagged("zz", "a"), string("aa")), Some(Ordering::Less), "text first");
    assert_eq!(compare(tagged("eng", "a"), tagged("en-gb", "a")), Some(Ordering::Less), "tags by the same ranks");
    assert_eq!(compare(string("B"), string("a")), Some(Ordering::Greater));
    assert_eq!(compare(string("a"), string("A")), Some(Ordering::Greater));
    assert_eq!(compare(uri("B"), uri("a")), Some(Ordering::Less), "URIs by bytes");
    assert_eq!(compare(uri("a"), uri("aa")), Some(Ordering::Less));
    let kinds = [uri("u"), string("u"), Term::Int(1), Term::Time(1)];
    for (i, a) in kinds.iter().enumerate() {
        for (j, b) in kinds.iter().enumerate() {
            assert_eq!(compare(*a, *b).is_some(), i == j);
        }
    }
    // No value has no order, also with itself; the fault comes first.
    assert_eq!(order(&Value::Int(None), &Value::Dec(None)), Some(None));
    assert_eq!(order(&Value::Str(None), &Value::Str(None)), Some(None));
    assert_eq!(order(&Value::Int(None), &Value::Str(None)), None);
}

/// Computed by Python's `datetime`, a proleptic Gregorian calendar, and checked by GNU `date -u`, both outside this project.
const VECTORS: &[(i64, &str)] = &[
    (-62_135_596_800, "0001-01-01T00:00:00Z"),
    (-62_104_060_801, "0001-12-31T23:59:59Z"),
    (-62_035_848_000, "0004-02-29T12:00:00Z"),
    (-62_009_366_401, "0004-12-31T23:59:59Z"),
    (-62_009_366_400, "0005-01-01T00:00:00Z"),
    (-59_006_361_601, "0100-02-28T23:59:59Z"),
    (-59_006_361_600, "0100-03-01T00:00:00Z"),
    (-58_979_923_201, "0100-12-31T23:59:59Z"),
    (-58_979_923_200, "0101-01-01T00:00:00Z"),
    (-49_539_340_800, "0400-02-29T00:00:00Z"),
    (-49_512_816_001, "0400-12-31T23:59:59Z"),
    (-49_512_816_000, "0401-01-01T00:00:00Z"),
    (-12_220_243_200, "1582-10-04T00:00:00Z"),
    (-12_219_724_800, "1582-10-10T00:00:00Z"),
    (-11_670_976_372, "1600-02-29T06:07:08Z"),
    (-8_515_238_401, "1700-02-28T23:59:59Z"),
    (-8_515_238_400, "1700-03-01T00:00:00Z"),
    (-2_208_988_801, "1899-12-31T23:59:59Z"),
    (-2_203_891_201, "1900-02-28T23:59:59Z"),
    (-2_203_891_200, "1900-03-01T00:00:00Z"),
    (-2_077_747_200, "1904-02-29T00:00:00Z"),
    (-57_974_401, "1968-02-29T23:59:59Z"),
    (68_169_600, "1972-02-29T00:00:00Z"),
    (946_684_799, "1999-12-31T23:59:59Z"),
    (951_868_800, "2000-03-01T00:00:00Z"),
    (978_307_199, "2000-12-31T23:59:59Z"),
    (978_307_200, "2001-01-01T00:00:00Z"),
    (1_483_228_799, "2016-12-31T23:59:59Z"),
    (2_147_483_648, "2038-01-19T03:14:08Z"),
    (4_107_542_399, "2100-02-28T23:59:59Z"),
    (4_107_542_400, "2100-03-01T00:00:00Z"),
    (13_574_563_200, "2400-02-29T00:00:00Z"),
    (253_281_168_000, "9996-02-29T00:00:00Z"),
    (253_402_300_799, "9999-12-31T23:59:59Z"),
    (0, "1970-01-01T00:00:00Z"),
    (-1, "1969-12-31T23:59:59Z"),
    (951_782_400, "2000-02-29T00:00:00Z"),
];

#[test]
fn calendar_vectors() {
    for (seconds, expected) in VECTORS {
        assert_eq!(text(Value::Time(*seconds).str()), *expected);
    }
}
