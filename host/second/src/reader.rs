//! The script reader: bytes in prefix order to a tree, or refusal 6.

use crate::lang::LangRange;
use crate::limits::{DEPTH, PAIRS, PATTERN, SCRIPT, TAG, VARIABLES};
use crate::pattern::Pattern;
use crate::refusal::{demand, refuse, Refusal};
use crate::script::{Block, Cond, Expr, Kind, Name, Node, NodeId, Pair, Query, Script};
use crate::types::Type;

/// Reads a whole script over this many numbered terms.
pub fn read_script(bytes: &[u8], terms: usize) -> Result<Script, Refusal> {
    demand(bytes.len() <= SCRIPT, 6, "script bytes")?;
    let mut reader = Reader { bytes, at: 0, terms, nodes: Vec::new() };
    reader.script(1)?;
    demand(reader.at == bytes.len(), 6, "bytes left over")?;
    Ok(Script { nodes: reader.nodes })
}

struct Reader<'a> {
    bytes: &'a [u8],
    at: usize,
    terms: usize,
    nodes: Vec<Node>,
}

type Read<T> = Result<T, Refusal>;

impl Reader<'_> {
    /// The kind byte of a record at this depth.
    fn kind(&mut self, depth: usize) -> Read<u8> {
        demand(depth <= DEPTH, 6, "depth")?;
        Ok(self.body::<1>()?[0])
    }

    /// The next N bytes.
    fn body<const N: usize>(&mut self) -> Read<[u8; N]> {
        let end = self.at + N;
        match self.bytes.get(self.at..end).and_then(|b| b.try_into().ok()) {
            Some(body) => {
                self.at = end;
                Ok(body)
            }
            None => refuse(6, "script ends too early"),
        }
    }

    /// The rest of a term record of this kind.
    fn name_of(&mut self, kind: u8) -> Read<Name> {
        match kind {
            0x31 => {
                let [variable] = self.body()?;
                demand(usize::from(variable) < VARIABLES, 6, "variable number")?;
                Ok(Name::Var(variable))
            }
            0x32 => {
                let number = u16::from_le_bytes(self.body()?);
                demand(usize::from(number) < self.terms, 6, "term number")?;
                Ok(Name::Const(number))
            }
            _ => refuse(6, "kind or place"),
        }
    }

    fn name(&mut self, depth: usize) -> Read<Name> {
        let kind = self.kind(depth)?;
        self.name_of(kind)
    }

    fn expr(&mut self, depth: usize) -> Read<Expr> {
        let below = depth + 1;
        match self.kind(depth)? {
            0x41 => Ok(Expr::Now),
            0x42 => Ok(Expr::Str(Box::new(self.expr(below)?))),
            0x43 => Ok(Expr::Abs(Box::new(self.expr(below)?))),
            0x44 => Ok(Expr::Plus(Box::new(self.expr(below)?), Box::new(self.expr(below)?))),
            0x45 => Ok(Expr::Minus(Box::new(self.expr(below)?), Box::new(self.expr(below)?))),
            kind => Ok(Expr::Name(self.name_of(kind)?)),
        }
    }

    fn cond(&mut self, depth: usize) -> Read<Cond> {
        let below = depth + 1;
        match self.kind(depth)? {
            0x50 => Ok(Cond::False),
            0x51 => Ok(Cond::True),
            0x52 => Ok(Cond::Or(Box::new(self.cond(below)?), Box::new(self.cond(below)?))),
            0x53 => Ok(Cond::And(Box::new(self.cond(below)?), Box::new(self.cond(below)?))),
            0x54 => Ok(Cond::Not(Box::new(self.cond(below)?))),
            0x55 => match Pattern::read(&self.body::<PATTERN>()?) {
                Some(pattern) => Ok(Cond::Regex(pattern, self.expr(below)?)),
                None => refuse(6, "bad pattern"),
            },
            0x56 => match LangRange::read(&self.body::<TAG>()?) {
                Some(range) => Ok(Cond::LangMatches(range, self.expr(below)?)),
                None => refuse(6, "bad range"),
            },
            0x57 => Ok(Cond::Equal(self.expr(below)?, self.expr(below)?)),
            0x58 => Ok(Cond::Less(self.expr(below)?, self.expr(below)?)),
            _ => refuse(6, "kind or place"),
        }
    }

    fn query(&mut self, depth: usize) -> Read<Query> {
        let below = depth + 1;
        match self.kind(depth)? {
            0x61 => Ok(Query::Pattern([self.name(below)?, self.name(below)?, self.name(below)?, self.name(below)?])),
            0x62 => Ok(Query::Both(Box::new(self.query(below)?), Box::new(self.query(below)?))),
            0x63 => Ok(Query::Union(Box::new(self.query(below)?), Box::new(self.query(below)?))),
            0x64 => {
                let cond = self.cond(below)?;
                let variables = cond.variables();
                Ok(Query::Filter(cond, variables))
            }
            0x65 => Ok(Query::Empty),
            _ => refuse(6, "kind or place"),
        }
    }

    /// The mode and the pairs of a block.
    fn head(&mut self) -> Read<(bool, Vec<Pair>)> {
        let [mode, count] = self.body()?;
        let body = self.body::<{ 2 * PAIRS }>()?;
        demand(mode <= 1, 6, "mode")?;
        demand(usize::from(count) <= PAIRS, 6, "count")?;
        let (used, unused) = body.split_at(2 * usize::from(count));
        demand(unused.iter().all(|b| *b == 0), 6, "unused pair")?;
        let mut pairs = Vec::new();
        for pair in used.chunks(2) {
            demand(usize::from(pair[0]) < VARIABLES, 6, "variable number")?;
            let written = Type::from_code(pair[1]);
            demand(pair[1] == 0 || written.is_some(), 6, "written type")?;
            pairs.push((pair[0], written));
        }
        Ok((mode == 1, pairs))
    }

    fn script(&mut self, depth: usize) -> Read<NodeId> {
        let offset = u16::try_from(self.at).unwrap_or(u16::MAX);
        let kind = self.kind(depth)?;
        let id = self.nodes.len();
        self.nodes.push(Node { offset, depth, kind: Kind::Success });
        let below = depth + 1;
        self.nodes[id].kind = match kind {
            0x71 => Kind::Success,
            0x72 => Kind::FromNamed(self.name(below)?, self.script(below)?),
            0x73 => {
                let (each, pairs) = self.head()?;
                Kind::Block(Block { each, pairs, query: self.query(below)?, then: self.script(below)? })
            }
            0x74 => Kind::Sequence(self.script(below)?, self.script(below)?),
            _ => return refuse(6, "kind or place"),
        };
        Ok(id)
    }
}
