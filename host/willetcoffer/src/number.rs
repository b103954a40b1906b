//! Numbers as makers print them.

use crate::limits::{NUMBER_RECORD_WIDTH, SLOT_WIDTH};
use crate::raw;
use crate::refusal::Refusal;
use crate::term::Term;

/// Reads the text of a number, such as `-3`, `126.4` or `0.999e2`: an optional sign, digits, optionally a point with digits after it,
/// optionally `e` or `E` with an optional sign and one or two digits; 1 to
/// [`NUMBER_TEXT_LIMIT`](crate::limits::NUMBER_TEXT_LIMIT) bytes in all. With neither point nor exponent it is an integer, otherwise
/// a decimal. The value is exact, and minus zero is zero.
///
/// Refused with 16 where the text is not of this form or length, then with 17 where the value lies outside the limits of its kind or has
/// no whole count of millionths.
///
/// ```
/// use willetcoffer::{number, Refusal, Term, Value};
/// assert_eq!(number("0.999e2")?.value(), Value::Decimal(99_900_000));
/// assert_eq!(number("-3")?.value(), Value::Integer(-3));
/// // Bytes from outside need not be text at all.
/// assert_eq!(number(b"126.4\xff"), Err(Refusal::NumberText));
/// assert_eq!(number("1e-7"), Err(Refusal::NumberValue));
/// # Ok::<(), Refusal>(())
/// ```
pub fn number(text: impl AsRef<[u8]>) -> Result<Term, Refusal> {
    let mut slot = [0; SLOT_WIDTH];
    Refusal::unless_zero(raw::number(text.as_ref(), &mut slot[..NUMBER_RECORD_WIDTH]))?;
    Ok(Term::from_slot(&slot).expect("a number call that is not refused writes the record of a term"))
}
