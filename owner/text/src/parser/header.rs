//! What stands before the script: prefixes, names of variables, listed terms, schema.

use super::{joined, Parsed, Parser};
use crate::diagnostic::Diagnostic;
use crate::lexer::Token;
use crate::tree::{Entry, Name, Node};
use willetcoffer::{Datatype, Type};

impl Parser {
    pub(super) fn header(&mut self) -> Parsed<()> {
        loop {
            match self.peek() {
                Token::Word(word) if word == "prefix" => self.prefix()?,
                Token::Word(word) if word == "names" => self.variable_names()?,
                Token::Word(word) if word == "terms" => self.listed_terms()?,
                Token::Word(word) if word == "schema" => self.entries()?,
                _ => return Ok(()),
            }
        }
    }

    fn prefix(&mut self) -> Parsed<()> {
        let start = self.advance();
        let name = match self.peek() {
            Token::Prefixed(name, local) if local.is_empty() => name.clone(),
            _ => return Err(self.expected("a prefix name with its colon, as in `prefix p: <http://p.example/>`")),
        };
        self.advance();
        let Token::Iri(iri) = self.peek().clone() else {
            return Err(self.expected("an IRI between `<` and `>`"));
        };
        let span = joined(&start, &self.advance());
        self.prefixes.add(&name, &iri).map_err(|bad| Diagnostic::new(6, span, bad.to_string(), "not a new prefix"))
    }

    fn variable_names(&mut self) -> Parsed<()> {
        self.advance();
        loop {
            let Token::Variable(name) = self.peek().clone() else {
                return Err(self.expected("a variable"));
            };
            let name = Node::new(name, self.advance());
            self.names.push(name);
            if !self.take_sign(",") {
                return Ok(());
            }
        }
    }

    fn listed_terms(&mut self) -> Parsed<()> {
        self.advance();
        loop {
            let name = self.term()?;
            match name.kind {
                Name::Constant(term) => self.terms.push(Node::new(term, name.span)),
                Name::Variable(_) => {
                    return Err(Diagnostic::new(
                        6,
                        name.span,
                        "a variable is no term of a card",
                        "expected a constant",
                    ));
                }
            }
            if !self.take_sign(",") {
                return Ok(());
            }
        }
    }

    fn entries(&mut self) -> Parsed<()> {
        self.advance();
        loop {
            let name = match self.peek() {
                Token::Iri(_) | Token::Prefixed(..) => self.term()?,
                _ => return Err(self.expected("a property, as in `schema p:speed xsd:decimal`")),
            };
            if let Name::Constant(property) = name.kind {
                let property = Node::new(property, name.span);
                let datatype = self.datatype(4)?;
                self.schema.push(Entry { property, datatype });
            }
            if !self.take_sign(",") {
                return Ok(());
            }
        }
    }

    /// A datatype; another word is refused with this number.
    fn datatype(&mut self, refusal: u32) -> Parsed<Datatype> {
        let found = match self.peek() {
            Token::Prefixed(name, local) => format!("{name}:{local}"),
            _ => String::new(),
        };
        match Datatype::ALL.into_iter().find(|datatype| datatype.to_string() == found) {
            Some(datatype) => {
                self.advance();
                Ok(datatype)
            }
            None => {
                let all = Datatype::ALL.map(|datatype| datatype.to_string()).join(", ");
                let message = format!("{} is no datatype", self.peek().describe());
                Err(Diagnostic::new(refusal, self.span(), message, "expected a datatype")
                    .help(format!("the datatypes are {all}")))
            }
        }
    }

    /// A written type: a datatype, or range of one.
    pub(super) fn written_type(&mut self) -> Parsed<Type> {
        if !self.is_word("range") {
            return Ok(Type::Data(self.datatype(6)?));
        }
        self.advance();
        self.want_sign("(")?;
        let datatype = self.datatype(6)?;
        self.want_sign(")")?;
        Ok(Type::Range(datatype))
    }
}
