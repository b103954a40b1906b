//! Refusal 9: the written type that would do, as the proved engine names it.

use crate::check::load;
use crate::diagnostic::Diagnostic;
use crate::encode::encode;
use crate::scope::numbers;
use crate::tree::{Node, Pair, Script, Source};
use willetcoffer::{Datatype, Refusal, Suggestion, Type};

/// Calls a function on each pair, in the order of the text.
pub(crate) fn for_each_pair(script: &mut Node<Script>, change: &mut impl FnMut(&mut Pair)) {
    match &mut script.kind {
        Script::Success => {}
        Script::FromNamed(_, then) => for_each_pair(then, change),
        Script::Sequence(first, second) => {
            for_each_pair(first, change);
            for_each_pair(second, change);
        }
        Script::Block(block) => {
            block.pairs.iter_mut().for_each(&mut *change);
            for_each_pair(&mut block.script, change);
        }
    }
}

/// The source with a type written at a variable.
pub(crate) fn with_type(source: &Source, variable: &str, written: Type) -> Source {
    let mut changed = source.clone();
    for_each_pair(&mut changed.script, &mut |pair| {
        if pair.variable.kind == variable {
            pair.written = Some(written);
        }
    });
    changed
}

/// The open pairs, the variable with the lowest number first.
fn open_pairs(source: &Source) -> Vec<&Pair> {
    let numbers = numbers(source).unwrap_or_default();
    let blocks = source.script.blocks();
    let mut open: Vec<&Pair> =
        blocks.iter().flat_map(|(block, _)| &block.pairs).filter(|p| p.written.is_none()).collect();
    open.sort_by_key(|pair| numbers.get(&pair.variable.kind).copied());
    open
}

/// The single written type that makes a script with refusal 9 acceptable, with the pair to write it at.
fn suggestion(source: &Source) -> Option<(&Pair, Type)> {
    let encoded = encode(source).ok()?;
    let Ok(Suggestion::Written { variable, written_type }) = encoded.card.suggest() else { return None };
    let name = encoded.legend.name(variable);
    open_pairs(source).into_iter().find(|pair| pair.variable.kind == name).map(|pair| (pair, written_type))
}

/// The types that can be written at a variable so that there are typings still.
pub(crate) fn possible(source: &Source, variable: &str) -> Vec<Type> {
    let fits = |written: &Type| load(&with_type(source, variable, *written)) != Err(Refusal::NoTyping);
    Type::all().filter(fits).collect()
}

/// Types in words: `xsd:decimal or xsd:integer`.
pub(crate) fn in_words(types: &[Type]) -> String {
    if types.len() == Type::all().count() {
        return "of any type".to_owned();
    }
    let (ranges, data): (Vec<Type>, Vec<Type>) = types.iter().partition(|found| matches!(found, Type::Range(_)));
    let mut words: Vec<String> = data.iter().map(Type::to_string).collect();
    if ranges.len() == Datatype::ALL.len() {
        words.push("any range".to_owned());
    } else {
        words.extend(ranges.iter().map(Type::to_string));
    }
    match &words[..] {
        [] => "no type".to_owned(),
        [one] => one.clone(),
        [first @ .., last] => format!("{} or {last}", first.join(", ")),
    }
}

/// The error of a script that has typings, and none above the rest.
pub(crate) fn explain(source: &Source) -> Diagnostic {
    let message = "there is no greatest typing";
    if let Some((pair, written)) = suggestion(source) {
        let types = possible(source, &pair.variable.kind);
        let name = &pair.variable.kind;
        let expected = format!("${name} can be {}", in_words(&types));
        return Diagnostic::new(9, pair.variable.span.clone(), message, expected)
            .help(format!("write `${name}: {written}`"));
    }
    let undecided = open_pairs(source).into_iter().map(|pair| (pair, possible(source, &pair.variable.kind)));
    let mut error = Diagnostic { refusal: 9, message: message.to_owned(), labels: Vec::new(), help: Vec::new() };
    for (pair, types) in undecided.filter(|(_, types)| types.len() > 1) {
        error = error.and(pair.variable.span.clone(), format!("${} can be {}", pair.variable.kind, in_words(&types)));
    }
    error.help("no single written type would do: write the types of two or more of these variables")
}
