//! Numbers as makers print them.

use std::error::Error;
use std::fmt;
use willetcoffer::limits::{DECIMAL_LIMIT, INTEGER_LIMIT, NUMBER_TEXT_LIMIT};
use willetcoffer::term::{MILLION, PLACES};
use willetcoffer::{Refusal, Term};

/// Why a text is no number.
#[derive(Clone, Copy, PartialEq, Eq, Debug)]
pub enum NumberError {
    /// It does not have the form of a number.
    Form,
    /// Its value lies outside the limits of its kind.
    Outside {
        /// Whether it is a decimal, or else an integer.
        decimal: bool,
    },
    /// It has more than six digits after the point.
    Inexact,
}

impl fmt::Display for NumberError {
    fn fmt(&self, f: &mut fmt::Formatter<'_>) -> fmt::Result {
        match self {
            NumberError::Form => {
                write!(
                    f,
                    "a number is a sign, digits, a point with digits and an exponent, up to {NUMBER_TEXT_LIMIT} bytes"
                )
            }
            NumberError::Outside { decimal: false } => write!(f, "an integer is at most {INTEGER_LIMIT} either way"),
            NumberError::Outside { decimal: true } => {
                write!(f, "a decimal is at most {} either way", DECIMAL_LIMIT / MILLION)
            }
            NumberError::Inexact => write!(f, "a decimal has at most {PLACES} digits after the point"),
        }
    }
}

impl Error for NumberError {}

/// Whether a text that has the form has a digit other than 0 behind the place of millionths.
fn is_inexact(text: &str) -> bool {
    let (digits, exponent) = text.split_once(['e', 'E']).unwrap_or((text, "0"));
    let (whole, fraction) = digits.split_once('.').unwrap_or((digits, ""));
    let all = [whole, fraction].concat();
    let last = all.len() - all.trim_end_matches('0').len();
    exponent.parse().unwrap_or(0) + last as i32 - (fraction.len() as i32) < -(PLACES as i32)
}

/// What is wrong with a text that the engine refuses.
fn reason(text: &str, refusal: Refusal) -> NumberError {
    match refusal {
        Refusal::NumberValue if is_inexact(text) => NumberError::Inexact,
        Refusal::NumberValue => NumberError::Outside { decimal: text.contains(['.', 'e', 'E']) },
        _ => NumberError::Form,
    }
}

/// Reads a number as the engine does ([`willetcoffer::number()`]): an optional sign, digits, optionally a point with digits after it,
/// optionally e or E with an optional sign and one or two digits. With neither point nor exponent it is an integer, otherwise a decimal,
/// exactly.
///
/// ```
/// use terms::{number, NumberError};
/// use willetcoffer::Term;
/// assert_eq!(number("0.999e2").ok(), Term::decimal(99_900_000).ok());
/// assert_eq!(number("-3").ok(), Term::integer(-3).ok());
/// assert_eq!(number("1e-7"), Err(NumberError::Inexact));
/// ```
pub fn number(text: &str) -> Result<Term, NumberError> {
    willetcoffer::number(text).map_err(|refusal| reason(text, refusal))
}

#[cfg(test)]
mod tests {
    use super::*;

    fn decimal(millionths: i64) -> Result<Term, NumberError> {
        Ok(Term::decimal(millionths).expect("within the limits"))
    }

    fn integer(value: i64) -> Result<Term, NumberError> {
        Ok(Term::integer(value).expect("within the limits"))
    }

    #[test]
    fn exact_values() {
        assert_eq!(number("007"), integer(7));
        assert_eq!(number("+5"), integer(5));
        assert_eq!(number("-0"), integer(0));
        assert_eq!(number("-0.0"), decimal(0));
        assert_eq!(number("0e99"), decimal(0));
        assert_eq!(number("5e0"), decimal(5_000_000));
        assert_eq!(number("126.40"), decimal(126_400_000));
        assert_eq!(number("-0.000001"), decimal(-1));
        assert_eq!(number("10e-7"), decimal(1));
        assert_eq!(number("1000000000000"), integer(INTEGER_LIMIT));
        assert_eq!(number("1E12"), decimal(DECIMAL_LIMIT));
    }

    #[test]
    fn no_numbers() {
        for text in ["", "-", "e5", ".5", "5.", "1e", "1e123", "1e+", "0x10", "1 ", "--1", "1.2.3", "NaN", "INF"] {
            assert_eq!(number(text), Err(NumberError::Form), "{text}");
        }
        assert_eq!(number(&"0".repeat(41)), Err(NumberError::Form));
    }

    #[test]
    fn values_that_no_record_holds() {
        assert_eq!(number("1000000000001"), Err(NumberError::Outside { decimal: false }));
        assert_eq!(number("1000000000000.000001"), Err(NumberError::Outside { decimal: true }));
        assert_eq!(number("1e13"), Err(NumberError::Outside { decimal: true }));
        assert_eq!(number("9e99"), Err(NumberError::Outside { decimal: true }));
        assert_eq!(number("0.0000001"), Err(NumberError::Inexact));
        assert_eq!(number("10000000e-13"), Ok(Term::decimal(1).expect("a millionth")));
        assert_eq!(number("10000001e-13"), Err(NumberError::Inexact));
        assert_eq!(number("-0.010E-5"), Err(NumberError::Inexact));
        // Both at once.
        assert_eq!(number("1000000000000.0000001"), Err(NumberError::Inexact));
    }
}
