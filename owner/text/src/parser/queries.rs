//! Queries: graph patterns, unions, filters.

use super::{joined, Parsed, Parser};
use crate::lexer::Token;
use crate::tree::{Name, Node, Query};

/// Words that begin a script.
const SCRIPT_WORDS: [&str; 4] = ["from", "select", "do", "success"];

fn both(left: Node<Query>, right: Node<Query>) -> Node<Query> {
    let span = joined(&left.span, &right.span);
    Node::new(Query::Both(Box::new(left), Box::new(right)), span)
}

impl Parser {
    /// Whether a part of a query begins here. A `{` begins one unless a script stands within it.
    fn is_part(&self) -> bool {
        if !self.is_sign("{") {
            return self.is_word("graph") || self.is_filter();
        }
        let within = (1..).map(|places| self.ahead(places)).find(|token| **token != Token::Sign("{"));
        !matches!(within, Some(Token::Word(word)) if SCRIPT_WORDS.contains(&word.as_str()))
    }

    pub(super) fn query(&mut self) -> Parsed<Node<Query>> {
        let mut query = self.part()?;
        while self.is_part() {
            query = both(query, self.part()?);
        }
        Ok(query)
    }

    fn part(&mut self) -> Parsed<Node<Query>> {
        if self.is_word("graph") {
            return self.graph();
        }
        if self.is_sign("{") && self.is_part() {
            return self.nested(Parser::group);
        }
        if !self.is_filter() {
            return Err(self.expected("`graph`, a condition or `{`"));
        }
        let filter = self.filter()?;
        let span = filter.span.clone();
        Ok(Node::new(Query::Filter(filter), span))
    }

    fn group(&mut self) -> Parsed<Node<Query>> {
        let start = self.advance();
        if self.is_sign("}") {
            return Ok(Node::new(Query::Empty, joined(&start, &self.advance())));
        }
        let mut query = self.query()?;
        while self.is_word("union") {
            self.advance();
            let right = self.query()?;
            let span = joined(&query.span, &right.span);
            query = Node::new(Query::Union(Box::new(query), Box::new(right)), span);
        }
        if !self.is_sign("}") {
            return Err(self.expected("`union`, `}` or more of the query"));
        }
        query.span = joined(&start, &self.advance());
        Ok(query)
    }

    /// A graph with its triples: one part, whose patterns are joined from the left.
    fn graph(&mut self) -> Parsed<Node<Query>> {
        self.advance();
        let graph = self.term()?;
        self.want_sign("{")?;
        let mut query = self.subject(&graph, None)?;
        while self.take_sign(".") && !self.is_sign("}") {
            query = self.subject(&graph, Some(query))?;
        }
        if !self.is_sign("}") {
            return Err(self.expected("`;`, `.` or `}` after a triple"));
        }
        self.advance();
        Ok(query)
    }

    /// A subject with its properties and objects, joined to what came before.
    fn subject(&mut self, graph: &Node<Name>, before: Option<Node<Query>>) -> Parsed<Node<Query>> {
        let subject = self.term()?;
        let first = self.triple(graph, &subject, subject.span.start)?;
        let mut query = match before {
            Some(before) => both(before, first),
            None => first,
        };
        while self.take_sign(";") {
            let start = self.span().start;
            query = both(query, self.triple(graph, &subject, start)?);
        }
        Ok(query)
    }

    fn triple(&mut self, graph: &Node<Name>, subject: &Node<Name>, start: usize) -> Parsed<Node<Query>> {
        let (property, object) = (self.term()?, self.term()?);
        let span = start..object.span.end;
        let names = [graph.clone(), subject.clone(), property, object];
        Ok(Node::new(Query::Pattern(Box::new(names)), span))
    }
}
