//! Variables: their numbers, and whether each is bound where it stands.

use crate::diagnostic::Diagnostic;
use crate::tree::{Block, Name, Node, Pair, Script, Source, Span};
use crate::walk::names_in_query;
use std::collections::HashMap;
use willetcoffer::limits::VARIABLE_LIMIT;

/// The number of each variable, by its name.
pub type Numbers = HashMap<String, u8>;

/// The number that a name of digits stands for.
fn numeral(name: &str) -> Option<u8> {
    let number: u8 = name.parse().ok()?;
    (usize::from(number) < VARIABLE_LIMIT && number.to_string() == name).then_some(number)
}

fn pairs(script: &Node<Script>) -> impl Iterator<Item = &Pair> {
    script.blocks().into_iter().flat_map(|(block, _)| &block.pairs)
}

/// Numbers the variables: those that are listed by their places, `$0` to `$15` by their numerals, all others by their first
/// pair with the lowest number that is left.
pub fn numbers(source: &Source) -> Result<Numbers, Diagnostic> {
    let mut numbers = Numbers::new();
    for (place, name) in source.names.iter().enumerate() {
        let number = u8::try_from(place).ok().filter(|_| place < VARIABLE_LIMIT).ok_or_else(|| too_many(&name.span))?;
        if numeral(&name.kind).unwrap_or(number) != number || numbers.insert(name.kind.clone(), number).is_some() {
            let expected = format!("expected the name of variable {number}");
            return Err(Diagnostic::new(6, name.span.clone(), "this name is another variable's", expected));
        }
    }
    let mut named = Vec::new();
    for Pair { variable, .. } in pairs(&source.script) {
        match numeral(&variable.kind) {
            Some(number) => {
                if let Some((name, _)) =
                    numbers.iter().find(|(name, taken)| **taken == number && **name != variable.kind)
                {
                    let message = format!("the `names` line calls this variable ${name}");
                    return Err(Diagnostic::new(6, variable.span.clone(), message, format!("expected ${name}")));
                }
                numbers.insert(variable.kind.clone(), number);
            }
            None if variable.kind.bytes().all(|b| b.is_ascii_digit()) => return Err(bad_numeral(&variable.span)),
            None => named.push(variable),
        }
    }
    for variable in named {
        if !numbers.contains_key(&variable.kind) {
            let free = (0..VARIABLE_LIMIT as u8).find(|number| !numbers.values().any(|taken| taken == number));
            numbers.insert(variable.kind.clone(), free.ok_or_else(|| too_many(&variable.span))?);
        }
    }
    Ok(numbers)
}

fn too_many(span: &Span) -> Diagnostic {
    let message = format!("a script binds at most {VARIABLE_LIMIT} variables");
    Diagnostic::new(6, span.clone(), message, "one too many")
}

fn bad_numeral(span: &Span) -> Diagnostic {
    let message = "a variable named by its number is one of $0 to $15";
    Diagnostic::new(6, span.clone(), message, "there is no such number").help("give the variable a name with a letter")
}

/// Says which variable is bound twice, or stands where it is not bound.
pub fn check(script: &Node<Script>) -> Result<(), Diagnostic> {
    let mut seen: HashMap<&str, &Span> = HashMap::new();
    for Pair { variable, .. } in pairs(script) {
        if let Some(before) = seen.insert(&variable.kind, &variable.span) {
            let message = format!("${} is bound twice", variable.kind);
            let help = "give one of them another name: a variable is bound in one place of a script";
            let error = Diagnostic::new(7, variable.span.clone(), message, "bound here again");
            return Err(error.and(before.clone(), "bound here first").help(help));
        }
    }
    Scope { all: seen, bound: Vec::new() }.script(script)
}

struct Scope<'a> {
    /// Every variable that some block binds, and where.
    all: HashMap<&'a str, &'a Span>,
    bound: Vec<&'a str>,
}

impl<'a> Scope<'a> {
    fn script(&mut self, node: &'a Node<Script>) -> Result<(), Diagnostic> {
        match &node.kind {
            Script::Success => Ok(()),
            Script::FromNamed(graph, then) => {
                self.name(&graph.kind, &graph.span)?;
                self.script(then)
            }
            Script::Sequence(first, second) => {
                self.script(first)?;
                self.script(second)
            }
            Script::Block(block) => self.block(block),
        }
    }

    fn block(&mut self, block: &'a Block) -> Result<(), Diagnostic> {
        let before = self.bound.len();
        self.bound.extend(block.pairs.iter().map(|pair| pair.variable.kind.as_str()));
        for (name, span) in names_in_query(&block.query) {
            self.name(name, span)?;
        }
        self.script(&block.script)?;
        self.bound.truncate(before);
        Ok(())
    }

    fn name(&self, name: &Name, span: &Span) -> Result<(), Diagnostic> {
        match name {
            Name::Variable(variable) if !self.bound.contains(&variable.as_str()) => Err(self.unbound(variable, span)),
            _ => Ok(()),
        }
    }

    fn unbound(&self, variable: &str, span: &Span) -> Diagnostic {
        let error =
            Diagnostic::new(7, span.clone(), format!("${variable} is not bound here"), "no block around this binds it");
        match self.all.get(variable) {
            Some(pair) => error
                .and((*pair).clone(), "bound here, for this block's query and script only")
                .help("without braces around it, a block reaches to the end of its group"),
            None => error.help(format!("bind it: `select ${variable} where ..`")),
        }
    }
}
