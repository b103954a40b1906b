//! The machine: a stack of script items, the variables' terms and the fetched list.

use crate::eval::{number, Bindings, Fault, Store};
use crate::rules::Env;
use crate::script::{Block, Kind, NodeId, Script};
use crate::search::{Search, Task, Tuple};

/// A stack item.
#[derive(Clone, PartialEq, Eq, Debug)]
pub struct Item {
    /// The script record.
    pub node: NodeId,
    /// An each block's last tuple, if it has used one.
    pub last: Option<Tuple>,
}

/// The machine's state beside the store.
#[derive(Clone, PartialEq, Eq, Debug)]
pub struct Machine {
    /// The stack from the bottom.
    pub stack: Vec<Item>,
    /// The bound variables' terms.
    pub bindings: Bindings,
    /// The fetched graphs in the order of their first page.
    pub fetched: Vec<u16>,
}

/// How a run ends.
#[derive(Clone, Copy, PartialEq, Eq, Debug)]
pub enum State {
    /// The stack is empty.
    Ended,
    /// A graph is to be fetched.
    Wanted(u16),
    /// A once block has no answer.
    Waiting,
    /// The budget is used up.
    Spent,
}

/// What the machine works over.
#[derive(Clone, Copy)]
pub struct World<'a> {
    /// The script.
    pub script: &'a Script,
    /// The variables' types.
    pub types: &'a Env,
    /// Terms, quads and now.
    pub store: Store<'a>,
    /// How answers are found.
    pub search: &'a dyn Search,
}

impl Machine {
    /// The machine as a load leaves it: the root alone on the stack, nothing bound or fetched.
    pub fn fresh() -> Machine {
        Machine { stack: vec![Item { node: 0, last: None }], bindings: [None; 16], fetched: Vec::new() }
    }

    /// Whether the graph that a from-named record names is fetched, and its number.
    fn graph(&self, world: &World, name: &crate::script::Name) -> Result<(u16, bool), Fault> {
        let graph = number(name, &self.bindings);
        if !world.store.terms.is_uri(usize::from(graph)) {
            return Err(Fault::FromNamed);
        }
        Ok((graph, self.fetched.contains(&graph)))
    }

    fn answer(&self, world: &World, block: &Block, last: Option<&[u16]>) -> Result<Option<Tuple>, Fault> {
        let World { store, types, search, .. } = *world;
        search.first(&Task { store, block, types, bindings: &self.bindings, last })
    }

    /// Binds a block's variables to the tuple, in the order of its pairs.
    pub fn bind(&mut self, block: &Block, tuple: &[u16]) {
        for ((variable, _), number) in block.pairs.iter().zip(tuple) {
            self.bindings[usize::from(*variable)] = Some(*number);
        }
    }

    /// Takes one step, or says why none can be taken.
    pub fn step(&mut self, world: &World) -> Result<Option<State>, Fault> {
        let Some(top) = self.stack.last() else {
            return Ok(Some(State::Ended));
        };
        let item = |node| Item { node, last: None };
        match &world.script.nodes[top.node].kind {
            Kind::Success => {
                self.stack.pop();
            }
            Kind::Sequence(first, second) => {
                self.stack.pop();
                self.stack.extend([item(*second), item(*first)]);
            }
            Kind::FromNamed(name, then) => match self.graph(world, name)? {
                (graph, false) => return Ok(Some(State::Wanted(graph))),
                (_, true) => {
                    self.stack.pop();
                    self.stack.push(item(*then));
                }
            },
            Kind::Block(block) if block.each => match self.answer(world, block, top.last.as_deref())? {
                None => {
                    self.stack.pop();
                }
                Some(tuple) => {
                    let node = top.node;
                    self.bind(block, &tuple);
                    self.stack.pop();
                    self.stack.extend([Item { node, last: Some(tuple) }, item(block.then)]);
                }
            },
            Kind::Block(block) => match self.answer(world, block, None)? {
                None => return Ok(Some(State::Waiting)),
                Some(tuple) => {
                    self.bind(block, &tuple);
                    self.stack.pop();
                    self.stack.push(item(block.then));
                }
            },
        }
        Ok(None)
    }

    /// Whether the machine stands, so that no step can be taken. An each block never does, so it is not searched.
    pub fn stands(&self, world: &World) -> Result<Option<State>, Fault> {
        let Some(top) = self.stack.last() else {
            return Ok(Some(State::Ended));
        };
        Ok(match &world.script.nodes[top.node].kind {
            Kind::FromNamed(name, _) => match self.graph(world, name)? {
                (graph, false) => Some(State::Wanted(graph)),
                (_, true) => None,
            },
            Kind::Block(block) if !block.each && self.answer(world, block, None)?.is_none() => Some(State::Waiting),
            _ => None,
        })
    }

    /// Takes steps until the machine stands or the budget is used up; gives the steps taken and the state.
    pub fn run(&mut self, world: &World, budget: u64) -> Result<(u64, State), Fault> {
        for taken in 0..budget {
            if let Some(state) = self.step(world)? {
                return Ok((taken, state));
            }
        }
        Ok((budget, self.stands(world)?.unwrap_or(State::Spent)))
    }
}
