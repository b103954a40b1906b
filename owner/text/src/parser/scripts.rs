//! Scripts.

use super::{joined, Parsed, Parser};
use crate::diagnostic::Diagnostic;
use crate::lexer::Token;
use crate::tree::{Block, Node, Pair, Script};
use willetcoffer::limits::PAIR_LIMIT;

impl Parser {
    fn is_script_end(&self) -> bool {
        self.is_sign("}") || *self.peek() == Token::End
    }

    /// The rest of a group: nothing is success, two items are a sequence.
    pub(super) fn script(&mut self) -> Parsed<Node<Script>> {
        if self.is_script_end() {
            let end = self.last_span().end;
            return Ok(Node::new(Script::Success, end..end));
        }
        let first = self.nested(Parser::item)?;
        if self.is_script_end() {
            return Ok(first);
        }
        let rest = self.nested(Parser::script)?;
        let span = joined(&first.span, &rest.span);
        Ok(Node::new(Script::Sequence(Box::new(first), Box::new(rest)), span))
    }

    fn item(&mut self) -> Parsed<Node<Script>> {
        match self.peek() {
            Token::Word(word) if word == "success" => Ok(Node::new(Script::Success, self.advance())),
            Token::Word(word) if word == "from" => self.named_graph(),
            Token::Word(word) if word == "do" || word == "select" => self.block(),
            Token::Sign("{") => self.group_of_scripts(),
            _ => Err(self.expected("`from named`, `select`, `do select`, `success` or `{`")),
        }
    }

    fn group_of_scripts(&mut self) -> Parsed<Node<Script>> {
        self.advance();
        let script = self.script()?;
        if !self.is_sign("}") {
            return Err(self.expected("`}`"));
        }
        self.advance();
        Ok(script)
    }

    /// The graph, and the rest of the group; its place is that of the words before the rest.
    fn named_graph(&mut self) -> Parsed<Node<Script>> {
        let start = self.advance();
        self.want_word("named")?;
        let graph = self.term()?;
        let span = joined(&start, &graph.span);
        let script = self.script()?;
        Ok(Node::new(Script::FromNamed(graph, Box::new(script)), span))
    }

    /// A block; its place is that of the words before `where`.
    fn block(&mut self) -> Parsed<Node<Script>> {
        let start = self.span();
        let each = self.is_word("do");
        if each {
            self.advance();
        }
        self.want_word("select")?;
        let pairs = if self.is_word("where") { Vec::new() } else { self.pairs()? };
        let span = joined(&start, &self.last_span());
        self.want_word("where")?;
        let query = self.query()?;
        let script = self.script()?;
        Ok(Node::new(Script::Block(Box::new(Block { each, pairs, query, script })), span))
    }

    fn pairs(&mut self) -> Parsed<Vec<Pair>> {
        let mut pairs = Vec::new();
        loop {
            let pair = self.pair()?;
            if pairs.len() == PAIR_LIMIT {
                let message = format!("a block binds at most {PAIR_LIMIT} variables");
                let help = "bind the others in a block of their own, within this one";
                return Err(Diagnostic::new(6, pair.variable.span, message, "one too many").help(help));
            }
            pairs.push(pair);
            if !self.take_sign(",") {
                return Ok(pairs);
            }
        }
    }

    fn pair(&mut self) -> Parsed<Pair> {
        let Token::Variable(name) = self.peek().clone() else {
            return Err(self.expected("a variable"));
        };
        let variable = Node::new(name, self.advance());
        let written = if self.take_sign(":") { Some(self.written_type()?) } else { None };
        Ok(Pair { variable, written })
    }
}
