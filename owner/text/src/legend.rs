//! What a card does not hold: the prefixes of its IRIs and the names of its variables.

use crate::diagnostic::Diagnostic;
use crate::parser::parse;
use crate::scope::Numbers;
use crate::tree::Source;
use std::fmt::Write;
use terms::Prefixes;
use willetcoffer::limits::VARIABLE_LIMIT;

/// The legend of a card. As text it is the `prefix` and `names` lines of a script.
///
/// ```
/// use text::Legend;
/// let legend: Legend = Legend::parse("prefix p: <http://p.example/>\nnames $loco, $1, $speed\n")?;
/// assert_eq!(["loco", "1", "speed", "3"].map(String::from), [0, 1, 2, 3].map(|number| legend.name(number)));
/// assert_eq!(Legend::parse(&legend.to_text())?, legend);
/// # Ok::<(), text::Diagnostic>(())
/// ```
#[derive(Clone, PartialEq, Eq, Debug, Default)]
pub struct Legend {
    /// The prefixes.
    pub prefixes: Prefixes,
    names: Vec<String>,
}

impl Legend {
    /// A legend with these prefixes, and names by number.
    pub(crate) fn new(prefixes: Prefixes, variables: &Numbers) -> Legend {
        let count = variables.values().max().map_or(0, |most| usize::from(*most) + 1);
        let mut names: Vec<String> = (0..count).map(|number| number.to_string()).collect();
        for (name, number) in variables {
            names[usize::from(*number)].clone_from(name);
        }
        Legend { prefixes, names }
    }

    /// A legend from its text, or from that of a whole script.
    pub fn parse(text: &str) -> Result<Legend, Diagnostic> {
        let source = parse(text)?;
        Ok(Legend::new(source.prefixes.clone(), &crate::scope::numbers(&source)?))
    }

    /// The name of a variable, without its `$`; its number where it has none.
    pub fn name(&self, number: u8) -> String {
        self.names.get(usize::from(number)).cloned().unwrap_or_else(|| number.to_string())
    }

    /// The text of the legend.
    pub fn to_text(&self) -> String {
        let mut text = header(&self.prefixes);
        if !self.names.is_empty() {
            text.push_str(&names_line(self.names.iter().map(String::as_str)));
        }
        text
    }

    /// The names that a source with these numbers needs to list, so that reading it gives the same numbers.
    pub(crate) fn listed_names(&self, source: &Source, actual: &Numbers) -> Vec<String> {
        let by_itself = crate::scope::numbers(source).is_ok_and(|numbers| numbers == *actual);
        let last = if by_itself { 0 } else { actual.values().max().map_or(0, |most| most + 1) };
        (0..last.min(VARIABLE_LIMIT as u8)).map(|number| self.name(number)).collect()
    }
}

/// The `prefix` lines of a text.
pub(crate) fn header(prefixes: &Prefixes) -> String {
    let width = prefixes.iter().map(|(name, _)| name.len()).max().unwrap_or(0) + 1;
    let mut text = String::new();
    for (name, iri) in prefixes.iter() {
        let name = format!("{name}:");
        let _ = writeln!(text, "prefix {name:width$} {}", terms::iri(iri, &Prefixes::default()));
    }
    text
}

/// The `names` line of a text.
pub(crate) fn names_line<'a>(names: impl Iterator<Item = &'a str>) -> String {
    let names: Vec<String> = names.map(|name| format!("${name}")).collect();
    format!("names {}\n", names.join(", "))
}
