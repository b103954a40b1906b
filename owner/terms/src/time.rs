//! Times.

use chrono::{DateTime, Duration, NaiveDateTime};
use std::error::Error;
use std::fmt;
use willetcoffer::Term;

/// Why a text is no dateTime that a record holds.
#[derive(Clone, Copy, PartialEq, Eq, Debug)]
pub enum TimeError {
    /// It does not have the form of a dateTime, or names a day or an hour that there is not.
    Form,
    /// It has no time zone, so that its second is not known.
    Zone,
    /// It has a part of a second.
    Fraction,
    /// It lies outside the years 1 to 9999.
    Outside,
}

impl fmt::Display for TimeError {
    fn fmt(&self, f: &mut fmt::Formatter<'_>) -> fmt::Result {
        f.write_str(match self {
            TimeError::Form => "a dateTime is a day and a time that there are, written 2026-03-01T12:00:00Z or 2026-03-01T13:00:00+01:00",
            TimeError::Zone => "a dateTime needs its time zone: Z for UTC, or an offset such as +01:00",
            TimeError::Fraction => "a dateTime has whole seconds",
            TimeError::Outside => "a dateTime lies in the years 1 to 9999",
        })
    }
}

impl Error for TimeError {}

/// Bytes of a date and a time, `2026-03-01T12:00:00`.
const CLOCK: usize = 19;
/// Where its hour, minute and second begin.
const HOUR: usize = 11;

/// Reads an xsd:dateTime with its time zone, which is taken to UTC.
///
/// ```
/// use terms::date_time;
/// assert_eq!(date_time("2013-06-06T13:00:00+01:00"), date_time("2013-06-06T12:00:00Z"));
/// ```
pub fn date_time(text: &str) -> Result<Term, TimeError> {
    let (clock, rest) = text.split_at_checked(CLOCK).ok_or(TimeError::Form)?;
    let (fraction, zone) = match rest.strip_prefix('.') {
        Some(rest) => rest.split_at(rest.find(|c: char| !c.is_ascii_digit()).unwrap_or(rest.len())),
        None => ("0", rest),
    };
    let midnight = &clock[HOUR..] == "24:00:00";
    let clock = if midnight { format!("{}00:00:00", &clock[..HOUR]) } else { clock.to_owned() };
    NaiveDateTime::parse_from_str(&clock, "%Y-%m-%dT%H:%M:%S").map_err(|_| TimeError::Form)?;
    if zone.is_empty() {
        return Err(TimeError::Zone);
    }
    let zone = if zone == "Z" { "+00:00" } else { zone };
    let time =
        DateTime::parse_from_str(&format!("{clock}{zone}"), "%Y-%m-%dT%H:%M:%S%:z").map_err(|_| TimeError::Form)?;
    if fraction.is_empty() || time.timestamp_subsec_nanos() != 0 {
        return Err(TimeError::Form);
    }
    if fraction.bytes().any(|digit| digit != b'0') {
        return Err(TimeError::Fraction);
    }
    let time = if midnight { time + Duration::days(1) } else { time };
    Term::date_time(time.timestamp()).map_err(|_| TimeError::Outside)
}

/// A second of a record as a dateTime in UTC.
pub(crate) fn written(seconds: i64) -> String {
    let time = NaiveDateTime::from_timestamp_opt(seconds, 0).unwrap_or_default();
    time.format("%Y-%m-%dT%H:%M:%SZ").to_string()
}

#[cfg(test)]
mod tests {
    use super::*;
    use willetcoffer::limits::{SECONDS_AFTER, SECONDS_BEFORE};

    #[test]
    fn seconds() {
        let rows = [
            ("1970-01-01T00:00:00Z", 0),
            ("1969-12-31T23:59:59Z", -1),
            ("2000-02-29T00:00:00Z", 951_782_400),
            ("1999-12-31T24:00:00Z", 946_684_800),
            ("2000-01-01T01:30:00.000+01:30", 946_684_800),
            ("0001-01-01T00:00:00Z", -SECONDS_BEFORE),
            ("9999-12-31T23:59:59Z", SECONDS_AFTER),
        ];
        for (text, seconds) in rows {
            assert_eq!(date_time(text).ok(), Term::date_time(seconds).ok(), "{text}");
        }
        assert_eq!([-1, 951_782_400].map(written), ["1969-12-31T23:59:59Z", "2000-02-29T00:00:00Z"]);
        assert_eq!([-SECONDS_BEFORE, SECONDS_AFTER].map(written), ["0001-01-01T00:00:00Z", "9999-12-31T23:59:59Z"]);
    }

    #[test]
    fn refused() {
        let rows = [
            ("2026-03-01", TimeError::Form),
            ("2026-02-29T00:00:00Z", TimeError::Form),
            ("2026-03-01T25:00:00Z", TimeError::Form),
            ("2026-03-01T23:59:60Z", TimeError::Form),
            ("2026-03-01T00:00:00.Z", TimeError::Form),
            ("2026-03-01t00:00:00Z", TimeError::Form),
            ("2026-03-01T00:00:00z", TimeError::Form),
            ("2026-03-01T00:00:00", TimeError::Zone),
            ("2026-03-01T00:00:00.5Z", TimeError::Fraction),
            ("2026-03-01T00:00:00.0000000001Z", TimeError::Fraction),
            ("0001-01-01T00:00:00+01:00", TimeError::Outside),
            ("0000-01-01T00:00:00Z", TimeError::Outside),
            ("9999-12-31T24:00:00Z", TimeError::Outside),
        ];
        for (text, error) in rows {
            assert_eq!(date_time(text), Err(error), "{text}");
        }
    }
}
