//! What was met among the texts of numbers, by what stands in them and what they were read as.

use super::coverage::{Coverage, ENOUGH};
use crate::call::number::{Read, Text};
use crate::judge::numbers::str_text;
use second::number::{parts, plain, Exponent, Parts};
use second::term::Term;
use willetcoffer::limits::{DECIMAL_LIMIT, INTEGER_LIMIT, NUMBER_RECORD_WIDTH, NUMBER_TEXT_LIMIT};

/// What a long enough list of texts has to meet.
const REQUIRED: [(&str, &[&str]); 14] = [
    ("number", &["00", "01", "16", "17"]),
    ("number before which 1 came", &["00", "16", "17"]),
    ("number read as", &["integer", "decimal", "minus zero, integer", "minus zero, decimal"]),
    ("number refused with 17", &["number outside its limits", "no whole count of millionths"]),
    (
        "number refused with 16, but for",
        &["a digit before the point", "a digit after the point", "an exponent's digit"],
    ),
    ("number refused with 16, but for", &["an exponent's third digit", "a blank", "its length"]),
    (
        "number's amount",
        &["the integers' limit", "minus the integers' limit", "the decimals' limit", "minus the decimals' limit"],
    ),
    ("number's amount", &["one past the integers' limit", "one past minus the integers' limit"]),
    ("number's amount", &["one past the decimals' limit", "one past minus the decimals' limit"]),
    ("number's exponent", &["none", "e", "e+", "e-", "E", "E+", "E-", "of one digit", "of two digits"]),
    ("number's text", &["without a sign", "with a plus", "with a minus", "zeros in front", "zeros behind the point"]),
    ("number's length", &["1, read", "40, read", "40, 17", "41", "more than 41", "none"]),
    ("number's record", &["0 bytes", "8 bytes", "9 bytes", "10 bytes", "another length"]),
    ("str's text for a number", &["the one read", "another"]),
];

/// What a text of a number would need to have the form.
fn but_for(text: &[u8]) -> Option<&'static str> {
    let has_form = |text: &[u8]| parts(text).is_some();
    let with = |at: usize| has_form(&[&text[..at], b"0", &text[at..]].concat());
    let point = text.iter().position(|byte| *byte == b'.');
    let digits = text.iter().rev().take_while(|byte| byte.is_ascii_digit()).count();
    match (text, point) {
        _ if has_form(text) => Some("its length"),
        ([.., b'e' | b'E' | b'+' | b'-'], _) if with(text.len()) && text.len() > 1 => Some("an exponent's digit"),
        _ if digits == 3 && has_form(&text[..text.len() - 1]) => Some("an exponent's third digit"),
        (_, Some(point)) if with(point) => Some("a digit before the point"),
        (_, Some(point)) if with(point + 1) => Some("a digit after the point"),
        _ if has_form(&text.iter().copied().filter(|byte| *byte != b' ').collect::<Vec<u8>>()) => Some("a blank"),
        _ => None,
    }
}

/// How far a number's amount is from the limit of its kind, where that is worth counting.
fn amount(parts: &Parts) -> Option<String> {
    let (limit, kind) = if parts.is_decimal() { (DECIMAL_LIMIT, "decimals") } else { (INTEGER_LIMIT, "integers") };
    let past = match parts.count()?.to_i64()? - limit {
        0 => "",
        1 => "one past ",
        _ => return None,
    };
    let minus = if parts.sign == Some(b'-') { "minus " } else { "" };
    Some(format!("{past}{minus}the {kind}' limit"))
}

fn sign(sign: Option<u8>) -> &'static str {
    match sign {
        Some(b'-') => "-",
        Some(_) => "+",
        None => "",
    }
}

impl Coverage {
    /// Counts a text that was read and what came of it.
    pub fn number(&mut self, text: &Text, read: &Read) {
        self.add("number", format!("{:02}", read.code));
        let width = match text.record {
            width @ (0 | NUMBER_RECORD_WIDTH) => format!("{width} bytes"),
            width if width.abs_diff(NUMBER_RECORD_WIDTH) == 1 => format!("{width} bytes"),
            _ => "another length".to_string(),
        };
        self.add("number's record", width);
        let otherwise = plain(&text.bytes);
        match (read.code, otherwise) {
            (1, _) => {
                let code = otherwise.map_or_else(|refusal| refusal.number, |_| 0);
                self.add("number before which 1 came", format!("{code:02}"));
            }
            (_, Err(refusal)) if refusal.number == 17 => self.add("number refused with 17", refusal.why),
            (_, Err(_)) => self.add("number refused with 16, but for", but_for(&text.bytes).unwrap_or("more")),
            (_, Ok(number)) => self.number_read(&text.bytes, number),
        }
        if read.code != 1 {
            self.number_text(&text.bytes, read.code);
        }
    }

    /// Counts what was read.
    fn number_read(&mut self, text: &[u8], number: Term) {
        let kind = if matches!(number, Term::Int(_)) { "integer" } else { "decimal" };
        self.add("number read as", kind);
        if text[0] == b'-' && matches!(number, Term::Int(0) | Term::Dec(0)) {
            self.add("number read as", format!("minus zero, {kind}"));
        }
        self.add("str's text for a number", if str_text(number) == text { "the one read" } else { "another" });
        let Some(Parts { sign: of_number, whole, fraction, exponent }) = parts(text) else { return };
        self.add(
            "number's text",
            match of_number {
                Some(b'-') => "with a minus",
                Some(_) => "with a plus",
                None => "without a sign",
            },
        );
        if whole.len() > 1 && whole[0] == b'0' {
            self.add("number's text", "zeros in front");
        }
        if fraction.is_some_and(|digits| digits.len() > 1 && digits.ends_with(b"0")) {
            self.add("number's text", "zeros behind the point");
        }
        let Some(Exponent { letter, sign: of_exponent, digits }) = exponent else {
            return self.add("number's exponent", "none");
        };
        self.add("number's exponent", format!("{}{}", char::from(letter), sign(of_exponent)));
        self.add("number's exponent", if digits.len() == 1 { "of one digit" } else { "of two digits" });
    }

    /// Counts a text by its length, and one that has the form by its amount.
    fn number_text(&mut self, text: &[u8], code: u32) {
        let parts = parts(text);
        let length = match (text.len(), code) {
            (0, _) => "none",
            (1, 0) => "1, read",
            (NUMBER_TEXT_LIMIT, 0) => "40, read",
            (NUMBER_TEXT_LIMIT, 17) => "40, 17",
            (length, _) if length == NUMBER_TEXT_LIMIT + 1 && parts.is_some() => "41",
            (length, _) if length > NUMBER_TEXT_LIMIT + 1 && parts.is_some() => "more than 41",
            _ => "another",
        };
        self.add("number's length", length);
        if let Some(amount) = parts.filter(|_| code != 16).and_then(|parts| amount(&parts)) {
            self.add("number's amount", amount);
        }
    }

    /// What of numbers was met too rarely, of what is required.
    pub fn missing_of_numbers(&self) -> Vec<String> {
        let rows = REQUIRED.into_iter().flat_map(|(section, keys)| keys.iter().map(move |key| (section, *key)));
        self.few(rows.map(|(section, key)| (section, key.to_string(), ENOUGH)))
    }
}
