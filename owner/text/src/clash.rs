//! Refusal 8: the places that do not go together.
//!
//! Every pattern, comparison, test, from named and written type is a place that asks something of types. Places are left out one by one from the end, and
//! stay out where the load still says 8; those that are left do not go together, and any of them left out would do.

use crate::check::load;
use crate::diagnostic::{Diagnostic, Label};
use crate::names;
use crate::suggest::{in_words, possible};
use crate::tree::{Block, Boolean, Expression, Name, Node, Pair, Query, Script, Source, Span};
use std::collections::HashSet;
use willetcoffer::{Refusal, Term, Type};

/// A place that asks something of types: where it stands, the variables in it, and what is said of it where it asks nothing of them.
struct Place {
    span: Span,
    variables: Vec<String>,
    label: Option<String>,
}

/// Walks the places of a script in order, and leaves out those that are not kept.
struct Cut<'a> {
    keep: &'a HashSet<usize>,
    properties: HashSet<Term>,
    places: Vec<Place>,
}

fn variables_of<'a>(names: impl Iterator<Item = &'a Name>) -> Vec<String> {
    let variables = names.filter_map(|name| match name {
        Name::Variable(variable) => Some(variable.clone()),
        Name::Constant(_) => None,
    });
    variables.collect()
}

fn expression_names<'a>(node: &'a Node<Expression>, found: &mut Vec<&'a Name>) {
    match &node.kind {
        Expression::Name(name) => found.push(name),
        Expression::Now => {}
        Expression::Str(e) | Expression::Abs(e) => expression_names(e, found),
        Expression::Plus(a, b) | Expression::Minus(a, b) => {
            expression_names(a, found);
            expression_names(b, found);
        }
    }
}

impl Cut<'_> {
    /// Counts a place, and says whether it is kept.
    fn place(&mut self, span: &Span, variables: Vec<String>) -> bool {
        self.places.push(Place { span: span.clone(), variables, label: None });
        self.keep.contains(&(self.places.len() - 1))
    }

    fn script(&mut self, node: &mut Node<Script>) {
        match &mut node.kind {
            Script::Success => {}
            Script::Sequence(first, second) => {
                self.script(first);
                self.script(second);
            }
            Script::Block(block) => {
                block.pairs.iter_mut().for_each(|pair| self.pair(pair));
                self.query(&mut block.query);
                self.script(&mut block.script);
            }
            Script::FromNamed(graph, then) => {
                let kept = self.place(&node.span, variables_of([&graph.kind].into_iter()));
                self.script(then);
                if !kept {
                    *node = (**then).clone();
                }
            }
        }
    }

    fn pair(&mut self, pair: &mut Pair) {
        let Some(written) = pair.written else { return };
        let kept = self.place(&pair.variable.span, vec![pair.variable.kind.clone()]);
        self.label(format!("written {written}"));
        if !kept {
            pair.written = None;
        }
    }

    /// Says something of the last place.
    fn label(&mut self, label: String) {
        if let Some(place) = self.places.last_mut() {
            place.label = Some(label);
        }
    }

    fn query(&mut self, node: &mut Node<Query>) {
        match &mut node.kind {
            Query::Empty => {}
            Query::Filter(boolean) => self.boolean(boolean),
            Query::Both(a, b) | Query::Union(a, b) => {
                self.query(a);
                self.query(b);
            }
            Query::Pattern(names) => {
                let kept = self.place(&node.span, variables_of(names.iter().map(|name| &name.kind)));
                if matches!(&names[2].kind, Name::Constant(property) if !self.properties.contains(property)) {
                    self.label("this property has no schema entry".to_owned());
                }
                if !kept {
                    node.kind = Query::Empty;
                }
            }
        }
    }

    fn boolean(&mut self, node: &mut Node<Boolean>) {
        let mut names = Vec::new();
        match &mut node.kind {
            Boolean::Constant(_) => return,
            Boolean::Not(a) => return self.boolean(a),
            Boolean::Or(a, b) | Boolean::And(a, b) => {
                self.boolean(a);
                return self.boolean(b);
            }
            Boolean::Regex(e, _) | Boolean::LangMatches(e, _) => expression_names(e, &mut names),
            Boolean::Equal(a, b) | Boolean::Less(a, b) => {
                expression_names(a, &mut names);
                expression_names(b, &mut names);
            }
        }
        let variables = variables_of(names.into_iter());
        if !self.place(&node.span, variables) {
            node.kind = Boolean::Constant(true);
        }
    }
}

/// The source with only these places, and all its places.
fn cut(source: &Source, keep: &HashSet<usize>) -> (Source, Vec<Place>) {
    let mut changed = source.clone();
    let properties = source.schema.iter().map(|entry| entry.property.kind).collect();
    let mut cut = Cut { keep, properties, places: Vec::new() };
    cut.script(&mut changed.script);
    (changed, cut.places)
}

/// Places that do not go together, as few as it takes, and all places.
fn clashing(source: &Source) -> (Vec<usize>, Vec<Place>) {
    let places = cut(source, &HashSet::new()).1;
    let mut keep: HashSet<usize> = (0..places.len()).collect();
    for place in (0..places.len()).rev() {
        keep.remove(&place);
        if load(&cut(source, &keep).0) != Err(Refusal::NoTyping) {
            keep.insert(place);
        }
    }
    let mut left: Vec<usize> = keep.into_iter().collect();
    left.sort_unstable();
    (left, places)
}

/// The variables of a place that another of these places has too, each with the types that the place alone leaves it.
fn asked(source: &Source, places: &[Place], left: &[usize], place: usize) -> Vec<(String, Vec<Type>)> {
    let alone = cut(source, &HashSet::from([place])).0;
    let elsewhere = |v: &String| left.iter().any(|other| *other != place && places[*other].variables.contains(v));
    let mut found: Vec<(String, Vec<Type>)> = Vec::new();
    for variable in places[place].variables.iter().filter(|variable| elsewhere(variable)) {
        if !found.iter().any(|row| row.0 == *variable) {
            found.push((variable.clone(), possible(&alone, variable)));
        }
    }
    found
}

/// What each of the clashing places asks, in words; what all places with a variable ask alike is no part of the clash.
fn in_each(source: &Source, places: &[Place], left: &[usize]) -> Vec<String> {
    let rows: Vec<_> = left.iter().map(|place| asked(source, places, left, *place)).collect();
    let alike = |(variable, types): &&(String, Vec<Type>)| {
        let mut others = rows.iter().flatten().filter(|row| row.0 == *variable);
        others.all(|row| row.1 == *types)
    };
    let all = Type::all().count();
    let say = |row: &Vec<(String, Vec<Type>)>| {
        let telling = row.iter().filter(|pair| !alike(pair) && pair.1.len() < all);
        telling.map(|(variable, types)| format!("${variable} is {}", in_words(types))).collect::<Vec<_>>().join(", ")
    };
    rows.iter().map(say).collect()
}

/// A name that no text has, for a variable in a constant's place.
const IN_PLACE: &str = "?";

/// The source with a variable in the place of its constant of this number, and the constant's place.
fn with_variable(source: &Source, number: usize) -> Option<(Source, Span)> {
    let mut changed = source.clone();
    let (mut met, mut place) = (0, None);
    names::in_script(&mut changed.script, &mut |name, span| {
        if let Name::Constant(_) = name {
            if met == number {
                *name = Name::Variable(IN_PLACE.to_owned());
                place = Some(span.clone());
            }
            met += 1;
        }
    });
    let pairs = vec![Pair { variable: Node::new(IN_PLACE.to_owned(), 0..0), written: None }];
    let block = Block { each: false, pairs, query: Node::new(Query::Empty, 0..0), script: changed.script };
    changed.script = Node::new(Script::Block(Box::new(block)), 0..0);
    Some((changed, place?))
}

/// For a place that has no typing by itself: the constants that would do if they had other types, the last one first.
fn constants(source: &Source, place: usize) -> Vec<Label> {
    let alone = cut(source, &HashSet::from([place])).0;
    let all: Vec<(Source, Span)> = (0..).map_while(|number| with_variable(&alone, number)).collect();
    let telling = all.into_iter().rev().filter_map(|(changed, span)| {
        let types = possible(&changed, IN_PLACE);
        let some = !types.is_empty() && types.len() < Type::all().count();
        some.then(|| Label { span, text: format!("this would have to be {}", in_words(&types)) })
    });
    telling.collect()
}

/// The error of a script without a typing.
pub(crate) fn explain(source: &Source) -> Diagnostic {
    let (left, places) = clashing(source);
    let (message, help) = match left.len() {
        0 | 1 => ("this cannot be typed".to_owned(), "look at the constants in it, and at the schema's datatypes"),
        count => (
            format!("these {count} places do not go together"),
            "change one of them, or use a variable of its own in it",
        ),
    };
    let message = format!("no typing: {message}");
    let mut error = Diagnostic { refusal: 8, message, labels: Vec::new(), help: vec![help.to_owned()] };
    for (place, asked) in left.iter().zip(in_each(source, &places, &left)).rev() {
        let text = match (asked.is_empty(), &places[*place].label) {
            (false, _) => format!("here {asked}"),
            (true, Some(label)) => label.clone(),
            (true, None) if left.len() == 1 => "no types make this right".to_owned(),
            (true, None) => "and this".to_owned(),
        };
        error = error.and(places[*place].span.clone(), text);
    }
    if let ([place], None) = (&left[..], left.first().and_then(|place| places[*place].label.as_ref())) {
        let constants = constants(source, *place);
        if !constants.is_empty() {
            error.labels = constants;
        }
    }
    error
}
