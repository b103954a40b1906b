//! From the tree to text, in one layout.

use crate::legend::{header, names_line};
use crate::tree::{Block, Boolean, Expression, Name, Node, Pair, Query, Script, Source};
use terms::{iri, literal, Prefixes};
use willetcoffer::{Datatype, Term, Value};

/// The text of a schema, with the prefixes under which its properties stand: the beginning of a script, or a legend.
///
/// ```
/// use willetcoffer::{Datatype, Term};
/// let mut prefixes = terms::Prefixes::default();
/// prefixes.add("p", "http://p.example/")?;
/// let text = text::print_schema(&[(Term::uri("p:name")?, Datatype::String)], &prefixes);
/// assert_eq!(text, "prefix p: <http://p.example/>\nschema p:name xsd:string\n");
/// assert_eq!(text::parse(&text)?.schema.len(), 1);
/// # Ok::<(), Box<dyn std::error::Error>>(())
/// ```
pub fn print_schema(entries: &[(Term, Datatype)], prefixes: &Prefixes) -> String {
    let mut printer = Printer { text: header(prefixes), indent: 0, prefixes };
    let entries: Vec<String> = entries.iter().map(|(property, datatype)| printer.entry(property, *datatype)).collect();
    printer.list("schema", &entries);
    printer.text
}

/// The text of a source. Reading it gives the same card.
pub fn print(source: &Source) -> String {
    let mut text = header(&source.prefixes);
    if !source.names.is_empty() {
        text.push_str(&names_line(source.names.iter().map(|name| name.kind.as_str())));
    }
    let mut printer = Printer { text, indent: 0, prefixes: &source.prefixes };
    let terms: Vec<String> = source.terms.iter().map(|term| literal(&term.kind, &source.prefixes)).collect();
    printer.list("terms", &terms);
    let schema = source.schema.iter().map(|entry| printer.entry(&entry.property.kind, entry.datatype));
    let schema: Vec<String> = schema.collect();
    printer.list("schema", &schema);
    if !printer.text.is_empty() {
        printer.text.push('\n');
    }
    printer.rest(&source.script, true);
    printer.text
}

/// The longest line of a list.
const LINE: usize = 100;

struct Printer<'a> {
    text: String,
    indent: usize,
    prefixes: &'a Prefixes,
}

/// Whether a query is a pattern in this graph, or several of them joined from the left.
fn triples<'a>(query: &'a Node<Query>, graph: &Name, found: &mut Vec<&'a [Node<Name>; 4]>) -> bool {
    match &query.kind {
        Query::Pattern(names) if names[0].kind == *graph => {
            found.push(names);
            true
        }
        Query::Both(a, b) if matches!(b.kind, Query::Pattern(_)) => {
            triples(a, graph, found) && triples(b, graph, found)
        }
        _ => false,
    }
}

/// The graph of the pattern that stands first in a query.
fn first_graph(query: &Node<Query>) -> Option<&Name> {
    match &query.kind {
        Query::Pattern(names) => Some(&names[0].kind),
        Query::Both(a, _) => first_graph(a),
        _ => None,
    }
}

/// A range that can stand without quotes.
fn is_bare_range(range: &str) -> bool {
    let name = range.strip_suffix("-*").unwrap_or(range);
    range == "*"
        || (name.starts_with(|c: char| c.is_ascii_lowercase())
            && name.bytes().all(|b| b.is_ascii_lowercase() || b == b'-'))
}

fn quoted(text: &str) -> String {
    format!("\"{}\"", text.replace('\\', "\\\\").replace('"', "\\\""))
}

impl Printer<'_> {
    fn line(&mut self, line: &str) {
        self.text.push_str(&" ".repeat(self.indent));
        self.text.push_str(line);
        self.text.push('\n');
    }

    /// A line that begins with a word, in pieces where it gets long.
    fn list(&mut self, word: &str, items: &[String]) {
        let mut line = String::new();
        for item in items {
            if !line.is_empty() && word.len() + line.len() + item.len() > LINE {
                self.line(&format!("{word} {line}"));
                line.clear();
            }
            let comma = if line.is_empty() { "" } else { ", " };
            line.push_str(&format!("{comma}{item}"));
        }
        if !line.is_empty() {
            self.line(&format!("{word} {line}"));
        }
    }

    fn entry(&self, property: &Term, datatype: Datatype) -> String {
        match property.value() {
            Value::Uri(text) => format!("{} {datatype}", iri(text, self.prefixes)),
            _ => String::new(),
        }
    }

    /// The rest of a group. Success says itself only where it must be seen.
    fn rest(&mut self, node: &Node<Script>, seen: bool) {
        match &node.kind {
            Script::Success if seen => self.line("success"),
            Script::Success => {}
            Script::FromNamed(graph, then) => {
                let graph = self.name(&graph.kind);
                self.line(&format!("from named {graph}"));
                self.rest(then, false);
            }
            Script::Block(block) => self.block(block),
            Script::Sequence(first, second) => {
                self.item(first);
                self.rest(second, true);
            }
        }
    }

    /// A script that others follow in its group.
    fn item(&mut self, node: &Node<Script>) {
        if node.kind == Script::Success {
            return self.line("success");
        }
        self.line("{");
        self.indent += 2;
        self.rest(node, true);
        self.indent -= 2;
        self.line("}");
    }

    fn block(&mut self, block: &Block) {
        let words = if block.each { "do select" } else { "select" };
        let pair = |Pair { variable, written }: &Pair| match written {
            Some(written) => format!(" ${}: {written}", variable.kind),
            None => format!(" ${}", variable.kind),
        };
        let pairs: Vec<String> = block.pairs.iter().map(pair).collect();
        self.line(&format!("{words}{}", pairs.join(",")));
        for (place, part) in self.parts(&block.query).iter().enumerate() {
            let word = if place == 0 { "where" } else { "     " };
            self.line(&format!("{word} {part}"));
        }
        self.rest(&block.script, false);
    }

    fn name(&self, name: &Name) -> String {
        match name {
            Name::Variable(variable) => format!("${variable}"),
            Name::Constant(term) => literal(term, self.prefixes),
        }
    }

    /// The parts that reading joins from the left to this query.
    fn parts(&self, query: &Node<Query>) -> Vec<String> {
        if let Some(graph) = first_graph(query) {
            let mut found = Vec::new();
            if triples(query, graph, &mut found) {
                return vec![self.graph(graph, &found)];
            }
        }
        match &query.kind {
            Query::Both(a, b) => {
                let mut parts = self.parts(a);
                parts.push(self.part(b));
                parts
            }
            Query::Union(..) => vec![format!("{{ {} }}", self.union(query))],
            Query::Filter(boolean) => vec![self.filter(boolean)],
            // a pattern has its graph, and was told above
            Query::Pattern(_) | Query::Empty => vec!["{}".to_owned()],
        }
    }

    fn part(&self, query: &Node<Query>) -> String {
        match &self.parts(query)[..] {
            [part] => part.clone(),
            parts => format!("{{ {} }}", parts.join("  ")),
        }
    }

    fn union(&self, query: &Node<Query>) -> String {
        match &query.kind {
            Query::Union(a, b) => format!("{} union {}", self.union(a), self.parts(b).join("  ")),
            _ => self.parts(query).join("  "),
        }
    }

    fn graph(&self, graph: &Name, triples: &[&[Node<Name>; 4]]) -> String {
        let mut text = format!("graph {} {{ ", self.name(graph));
        let mut subject = None;
        for [_, next, property, object] in triples {
            let (property, object) = (self.name(&property.kind), self.name(&object.kind));
            match subject {
                Some(same) if same == &next.kind => text.push_str(" ; "),
                Some(_) => text.push_str(&format!(" . {} ", self.name(&next.kind))),
                None => text.push_str(&format!("{} ", self.name(&next.kind))),
            }
            text.push_str(&format!("{property} {object}"));
            subject = Some(&next.kind);
        }
        text + " }"
    }

    /// A filter; where a minus stands first it would be taken for that of a difference.
    fn filter(&self, boolean: &Node<Boolean>) -> String {
        let text = self.boolean(boolean);
        if text.starts_with('-') {
            format!("({text})")
        } else {
            text
        }
    }

    fn boolean(&self, node: &Node<Boolean>) -> String {
        match &node.kind {
            Boolean::Constant(value) => value.to_string(),
            Boolean::Or(a, b) => {
                format!("{} || {}", self.boolean(a), self.within(b, matches!(b.kind, Boolean::Or(..))))
            }
            Boolean::And(a, b) => {
                let below = |side: &Node<Boolean>| matches!(side.kind, Boolean::Or(..));
                let right = below(b) || matches!(b.kind, Boolean::And(..));
                format!("{} && {}", self.within(a, below(a)), self.within(b, right))
            }
            Boolean::Not(a) => self.not(a),
            Boolean::Regex(e, pattern) => format!("regex({}, {})", self.expression(e), quoted(&pattern.kind)),
            Boolean::LangMatches(e, range) => {
                let range = if is_bare_range(&range.kind) { range.kind.clone() } else { quoted(&range.kind) };
                format!("langMatches({}, {range})", self.expression(e))
            }
            Boolean::Equal(a, b) => self.compared(a, "=", b),
            Boolean::Less(a, b) => self.compared(a, "<", b),
        }
    }

    /// A negation; a negated comparison has a sign of its own.
    fn not(&self, node: &Node<Boolean>) -> String {
        match &node.kind {
            Boolean::Equal(a, b) => self.compared(a, "!=", b),
            Boolean::Less(a, b) => self.compared(a, ">=", b),
            kind => {
                let plain = match kind {
                    Boolean::Constant(_) | Boolean::Regex(..) | Boolean::LangMatches(..) => true,
                    Boolean::Not(a) => !matches!(a.kind, Boolean::Equal(..) | Boolean::Less(..)),
                    _ => false,
                };
                format!("!{}", self.within(node, !plain))
            }
        }
    }

    fn compared(&self, a: &Node<Expression>, sign: &str, b: &Node<Expression>) -> String {
        format!("{} {sign} {}", self.expression(a), self.expression(b))
    }

    fn within(&self, node: &Node<Boolean>, parentheses: bool) -> String {
        let text = self.boolean(node);
        if parentheses {
            format!("({text})")
        } else {
            text
        }
    }

    fn expression(&self, node: &Node<Expression>) -> String {
        let right = |side: &Node<Expression>| match &side.kind {
            Expression::Plus(..) | Expression::Minus(..) => format!("({})", self.expression(side)),
            _ => self.expression(side),
        };
        match &node.kind {
            Expression::Name(name) => self.name(name),
            Expression::Now => "now".to_owned(),
            Expression::Str(e) => format!("str({})", self.expression(e)),
            Expression::Abs(e) => format!("abs({})", self.expression(e)),
            Expression::Plus(a, b) => format!("{} + {}", self.expression(a), right(b)),
            Expression::Minus(a, b) => format!("{} - {}", self.expression(a), right(b)),
        }
    }
}
