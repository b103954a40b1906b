//! Named numbers of definitions, Rust, Rattle and C, their expressions evaluated.

use std::collections::BTreeMap;

/// Numbers by their names in capitals.
pub type Numbers = BTreeMap<String, i128>;

/// A name in capitals: `termTableWidth` and `TermTableWidth` are `TERM_TABLE_WIDTH`.
pub fn snake(name: &str) -> String {
    let mut text = String::new();
    let mut after_small = false;
    for letter in name.chars() {
        if after_small && letter.is_ascii_uppercase() {
            text.push('_');
        }
        after_small = letter.is_ascii_lowercase() || letter.is_ascii_digit();
        text.push(letter.to_ascii_uppercase());
    }
    text
}

/// The numbers of definitions: `abbrev pub name : ℕ`, then `name = expression` up to an empty line.
pub fn antt(text: &str) -> Numbers {
    let mut numbers = Numbers::new();
    let mut parts = text.split("abbrev pub ").skip(1).map(|part| part.split("\n\n").next().unwrap_or_default());
    for part in parts.by_ref() {
        let Some((head, equation)) = part.split_once('\n') else { continue };
        let Some(name) = head.strip_suffix(" : ℕ") else { continue };
        let expression = equation.strip_prefix(name).and_then(|rest| rest.strip_prefix(" = "));
        let expression = expression.unwrap_or_else(|| panic!("{name} has no equation: {part}"));
        let number = evaluate(expression, &numbers);
        assert_eq!(numbers.insert(snake(name), number), None, "{name} is defined twice");
    }
    numbers
}

/// The numbers of Rust or Rattle: `pub const NAME: type = expression;`.
pub fn rust(text: &str) -> Numbers {
    let mut numbers = Numbers::new();
    for part in text.split("pub const ").skip(1) {
        let statement = part.split(';').next().unwrap_or_default();
        let (head, expression) = statement.split_once(" = ").unwrap_or_else(|| panic!("no value: {statement}"));
        let name = head.split(':').next().unwrap_or_default();
        let number = evaluate(expression.trim_end_matches(" as usize"), &numbers);
        assert_eq!(numbers.insert(name.to_string(), number), None, "{name} is defined twice");
    }
    numbers
}

/// The numbers of a C header: `#define WILLETCOFFER_NAME expression`, its own guard left out.
pub fn header(text: &str) -> Numbers {
    let mut numbers = Numbers::new();
    for line in text.lines().filter_map(|line| line.trim_start().strip_prefix("#define ")) {
        let line = line.split("/*").next().unwrap_or_default().trim();
        let name = line.split(' ').next().unwrap_or_default();
        let expression = line[name.len()..].trim();
        if name == "WILLETCOFFER_H" && expression.is_empty() {
            continue;
        }
        let name = name.strip_prefix("WILLETCOFFER_").unwrap_or_else(|| panic!("{name} is no name of ours"));
        let number = evaluate(expression, &numbers);
        assert_eq!(numbers.insert(name.to_string(), number), None, "{name} is defined twice");
    }
    numbers
}

/// The value of a sum of products of powers over numbers and the names so far.
fn evaluate(text: &str, names: &Numbers) -> i128 {
    let mut reader = Reader { rest: text, names };
    let value = reader.sum();
    assert!(reader.next().is_none(), "{text}: left over: {}", reader.rest);
    value
}

struct Reader<'a> {
    rest: &'a str,
    names: &'a Numbers,
}

impl Reader<'_> {
    fn next(&mut self) -> Option<char> {
        self.rest = self.rest.trim_start();
        self.rest.chars().next()
    }

    fn take(&mut self, sign: char) -> bool {
        let there = self.next() == Some(sign);
        if there {
            self.rest = &self.rest[sign.len_utf8()..];
        }
        there
    }

    fn sum(&mut self) -> i128 {
        let mut value = self.product();
        while self.take('+') {
            value += self.product();
        }
        value
    }

    fn product(&mut self) -> i128 {
        let mut value = self.power();
        while self.take('*') {
            value *= self.power();
        }
        value
    }

    fn power(&mut self) -> i128 {
        let base = self.atom();
        if self.take('^') {
            return base.pow(u32::try_from(self.power()).expect("a small power"));
        }
        base
    }

    fn atom(&mut self) -> i128 {
        if self.take('(') {
            let value = self.sum();
            assert!(self.take(')'), "no bracket at {}", self.rest);
            return value;
        }
        self.next();
        let end = self.rest.find(|c: char| !(c.is_ascii_alphanumeric() || c == '_')).unwrap_or(self.rest.len());
        let (word, rest) = self.rest.split_at(end);
        self.rest = rest;
        let digits = word.trim_end_matches('L').replace('_', "");
        let named = || self.names.get(&snake(word)).copied();
        digits.parse().ok().or_else(named).unwrap_or_else(|| panic!("{word:?} is no number"))
    }
}
