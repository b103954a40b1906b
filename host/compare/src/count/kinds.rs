//! Which kinds of records stand in a script.

use second::script::{Cond, Expr, Kind, Name, Query, Script};

/// The kinds seen so far.
struct Kinds {
    seen: [bool; 256],
}

/// The kinds of all records of a script, rising.
pub fn kinds(script: &Script) -> Vec<usize> {
    let mut kinds = Kinds { seen: [false; 256] };
    kinds.script(script);
    (0..256).filter(|kind| kinds.seen[*kind]).collect()
}

impl Kinds {
    fn see(&mut self, kind: usize) {
        self.seen[kind] = true;
    }

    fn script(&mut self, script: &Script) {
        for node in &script.nodes {
            match &node.kind {
                Kind::Success => self.see(0x71),
                Kind::FromNamed(name, _) => {
                    self.see(0x72);
                    self.expr(&Expr::Name(*name));
                }
                Kind::Block(block) => {
                    self.see(0x73);
                    self.query(&block.query);
                }
                Kind::Sequence(..) => self.see(0x74),
            }
        }
    }

    fn query(&mut self, query: &Query) {
        match query {
            Query::Pattern(names) => {
                self.see(0x61);
                names.iter().for_each(|name| self.expr(&Expr::Name(*name)));
            }
            Query::Both(a, b) | Query::Union(a, b) => {
                self.see(if matches!(query, Query::Both(..)) { 0x62 } else { 0x63 });
                self.query(a);
                self.query(b);
            }
            Query::Filter(cond, _) => {
                self.see(0x64);
                self.cond(cond);
            }
            Query::Empty => self.see(0x65),
        }
    }

    fn cond(&mut self, cond: &Cond) {
        match cond {
            Cond::False => self.see(0x50),
            Cond::True => self.see(0x51),
            Cond::Or(a, b) | Cond::And(a, b) => {
                self.see(if matches!(cond, Cond::Or(..)) { 0x52 } else { 0x53 });
                self.cond(a);
                self.cond(b);
            }
            Cond::Not(a) => {
                self.see(0x54);
                self.cond(a);
            }
            Cond::Regex(_, e) | Cond::LangMatches(_, e) => {
                self.see(if matches!(cond, Cond::Regex(..)) { 0x55 } else { 0x56 });
                self.expr(e);
            }
            Cond::Equal(a, b) | Cond::Less(a, b) => {
                self.see(if matches!(cond, Cond::Equal(..)) { 0x57 } else { 0x58 });
                self.expr(a);
                self.expr(b);
            }
        }
    }

    fn expr(&mut self, expr: &Expr) {
        match expr {
            Expr::Name(Name::Var(_)) => self.see(0x31),
            Expr::Name(Name::Const(_)) => self.see(0x32),
            Expr::Now => self.see(0x41),
            Expr::Str(e) => {
                self.see(0x42);
                self.expr(e);
            }
            Expr::Abs(e) => {
                self.see(0x43);
                self.expr(e);
            }
            Expr::Plus(a, b) | Expr::Minus(a, b) => {
                self.see(if matches!(expr, Expr::Plus(..)) { 0x44 } else { 0x45 });
                self.expr(a);
                self.expr(b);
            }
        }
    }
}
