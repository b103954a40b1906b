//! Booleans and expressions. Both may stand between parentheses, so they are read as one and told apart afterwards.

use super::{joined, Parsed, Parser};
use crate::diagnostic::Diagnostic;
use crate::lexer::Token;
use crate::tree::{Boolean, Expression, Node, Span};

enum Value {
    Expression(Node<Expression>),
    Boolean(Node<Boolean>),
}

/// Words that begin an expression or a boolean.
const WORDS: [&str; 7] = ["now", "str", "abs", "true", "false", "regex", "langMatches"];

fn boolean(value: Value) -> Parsed<Box<Node<Boolean>>> {
    match value {
        Value::Boolean(node) => Ok(Box::new(node)),
        Value::Expression(node) => {
            let help = "compare it with `=`, `!=`, `<`, `<=`, `>` or `>=`, or test it with `regex` or `langMatches`";
            Err(Diagnostic::new(6, node.span, "a value alone is no condition", "expected a condition").help(help))
        }
    }
}

fn expression(value: Value) -> Parsed<Box<Node<Expression>>> {
    match value {
        Value::Expression(node) => Ok(Box::new(node)),
        Value::Boolean(node) => Err(Diagnostic::new(6, node.span, "a condition is no value", "expected a value")),
    }
}

impl Value {
    fn span(&self) -> &Span {
        match self {
            Value::Expression(node) => &node.span,
            Value::Boolean(node) => &node.span,
        }
    }

    /// The same between parentheses.
    fn within(self, span: Span) -> Value {
        match self {
            Value::Expression(node) => Value::Expression(Node::new(node.kind, span)),
            Value::Boolean(node) => Value::Boolean(Node::new(node.kind, span)),
        }
    }
}

impl Parser {
    /// Whether a filter begins here.
    pub(super) fn is_filter(&self) -> bool {
        match self.peek() {
            Token::Word(word) => WORDS.contains(&word.as_str()),
            Token::Sign(sign) => matches!(*sign, "(" | "!"),
            Token::End => false,
            _ => true,
        }
    }

    pub(super) fn filter(&mut self) -> Parsed<Box<Node<Boolean>>> {
        boolean(self.either()?)
    }

    fn either(&mut self) -> Parsed<Value> {
        let mut left = self.both()?;
        while self.take_sign("||") {
            let right = self.both()?;
            let span = joined(left.span(), right.span());
            left = Value::Boolean(Node::new(Boolean::Or(boolean(left)?, boolean(right)?), span));
        }
        Ok(left)
    }

    fn both(&mut self) -> Parsed<Value> {
        let mut left = self.negated()?;
        while self.take_sign("&&") {
            let right = self.negated()?;
            let span = joined(left.span(), right.span());
            left = Value::Boolean(Node::new(Boolean::And(boolean(left)?, boolean(right)?), span));
        }
        Ok(left)
    }

    fn negated(&mut self) -> Parsed<Value> {
        if !self.is_sign("!") {
            return self.compared();
        }
        let start = self.advance();
        let inner = boolean(self.nested(Parser::negated)?)?;
        let span = joined(&start, &inner.span);
        Ok(Value::Boolean(Node::new(Boolean::Not(inner), span)))
    }

    /// The sign of comparison that stands here.
    fn comparison(&self) -> Option<&'static str> {
        match self.peek() {
            Token::Sign(sign @ ("=" | "!=" | "<" | "<=" | ">" | ">=")) => Some(sign),
            _ => None,
        }
    }

    fn compared(&mut self) -> Parsed<Value> {
        let left = self.sum()?;
        let Some(sign) = self.comparison() else { return Ok(left) };
        self.advance();
        let right = self.sum()?;
        if self.comparison().is_some() {
            let error = Diagnostic::new(6, self.span(), "a comparison has two sides", "not expected here");
            return Err(error.help("join two comparisons by `&&`, as in `1 < $x && $x <= 3`"));
        }
        let span = joined(left.span(), right.span());
        let (left, right) = (expression(left)?, expression(right)?);
        let not = |kind| Boolean::Not(Box::new(Node::new(kind, span.clone())));
        let kind = match sign {
            "=" => Boolean::Equal(left, right),
            "!=" => not(Boolean::Equal(left, right)),
            "<" => Boolean::Less(left, right),
            "<=" => not(Boolean::Less(right, left)),
            ">" => Boolean::Less(right, left),
            _ => not(Boolean::Less(left, right)),
        };
        Ok(Value::Boolean(Node::new(kind, span)))
    }

    fn sum(&mut self) -> Parsed<Value> {
        let mut left = self.factor()?;
        loop {
            let plus = self.is_sign("+");
            if !plus && !self.is_sign("-") {
                return Ok(left);
            }
            self.advance();
            let right = self.factor()?;
            let span = joined(left.span(), right.span());
            let (a, b) = (expression(left)?, expression(right)?);
            let kind = if plus { Expression::Plus(a, b) } else { Expression::Minus(a, b) };
            left = Value::Expression(Node::new(kind, span));
        }
    }

    fn factor(&mut self) -> Parsed<Value> {
        if self.is_sign("(") {
            let start = self.advance();
            let inner = self.nested(Parser::either)?;
            let end = self.want_sign(")")?;
            return Ok(inner.within(joined(&start, &end)));
        }
        let Token::Word(word) = self.peek().clone() else {
            let name = self.term()?;
            return Ok(Value::Expression(Node::new(Expression::Name(name.kind), name.span)));
        };
        match word.as_str() {
            "true" | "false" => Ok(Value::Boolean(Node::new(Boolean::Constant(word == "true"), self.advance()))),
            "now" => Ok(Value::Expression(Node::new(Expression::Now, self.advance()))),
            "str" | "abs" => self.function(word == "str"),
            "regex" | "langMatches" => self.test(word == "regex"),
            _ => Err(self.expected("a value or a condition")),
        }
    }

    fn function(&mut self, str: bool) -> Parsed<Value> {
        let start = self.advance();
        self.want_sign("(")?;
        let inner = expression(self.nested(Parser::either)?)?;
        let span = joined(&start, &self.want_sign(")")?);
        let kind = if str { Expression::Str(inner) } else { Expression::Abs(inner) };
        Ok(Value::Expression(Node::new(kind, span)))
    }

    fn test(&mut self, regex: bool) -> Parsed<Value> {
        let start = self.advance();
        self.want_sign("(")?;
        let inner = expression(self.nested(Parser::either)?)?;
        self.want_sign(",")?;
        let argument = if regex { self.pattern()? } else { self.language_range()? };
        let span = joined(&start, &self.want_sign(")")?);
        let kind = if regex { Boolean::Regex(inner, argument) } else { Boolean::LangMatches(inner, argument) };
        Ok(Value::Boolean(Node::new(kind, span)))
    }

    fn pattern(&mut self) -> Parsed<Node<String>> {
        match self.peek().clone() {
            Token::Text(text, tag) if tag.is_empty() => Ok(Node::new(text, self.advance())),
            _ => Err(self.expected("a pattern between quotes, as in `regex($name, \"^Mal\")`")),
        }
    }

    fn language_range(&mut self) -> Parsed<Node<String>> {
        match self.peek().clone() {
            Token::Word(range) => Ok(Node::new(range, self.advance())),
            Token::Sign("*") => Ok(Node::new("*".to_owned(), self.advance())),
            Token::Text(range, tag) if tag.is_empty() => Ok(Node::new(range, self.advance())),
            _ => Err(self.expected("a language range, as in `langMatches($name, en-*)`")),
        }
    }
}
