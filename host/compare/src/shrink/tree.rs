//! A script as a tree of records, by kinds alone: to be cut.

use willetcoffer::limits::{BLOCK_WIDTH, LANGUAGE_RANGE_WIDTH, PAIR_LIMIT, PATTERN_WIDTH};

/// A record with its children.
#[derive(Clone, PartialEq, Eq, Debug)]
pub struct Node {
    /// Its kind.
    pub kind: u8,
    /// Its body.
    pub body: Vec<u8>,
    /// The records that follow it as its parts.
    pub children: Vec<Node>,
}

/// Where a record may stand.
#[derive(Clone, Copy, PartialEq, Eq, Debug)]
pub enum Place {
    /// Variables, constants and expressions.
    Expression,
    /// Booleans.
    Boolean,
    /// Queries.
    Query,
    /// Scripts.
    Script,
}

/// The bytes of a body and the number of children that a kind fixes.
fn shape(kind: u8) -> Option<(usize, usize)> {
    Some(match kind {
        0x31 => (1, 0),
        0x32 => (2, 0),
        0x41 | 0x50 | 0x51 | 0x65 | 0x71 => (0, 0),
        0x42 | 0x43 | 0x54 | 0x64 => (0, 1),
        0x44 | 0x45 | 0x52 | 0x53 | 0x57 | 0x58 | 0x62 | 0x63 | 0x72 | 0x74 => (0, 2),
        0x55 => (PATTERN_WIDTH, 1),
        0x56 => (LANGUAGE_RANGE_WIDTH, 1),
        0x61 => (0, 4),
        0x73 => (BLOCK_WIDTH, 2),
        _ => return None,
    })
}

/// Deeper than any script that is not refused.
const DEPTH: usize = 64;

impl Node {
    /// The tree of all these bytes, if they are one.
    pub fn read(bytes: &[u8]) -> Option<Node> {
        let (node, rest) = Node::front(bytes, DEPTH)?;
        rest.is_empty().then_some(node)
    }

    fn front(bytes: &[u8], depth: usize) -> Option<(Node, &[u8])> {
        let (kind, rest) = bytes.split_first()?;
        let (width, count) = shape(*kind)?;
        let (body, mut rest) = rest.split_at_checked(width)?;
        let mut children = Vec::new();
        for _ in 0..count {
            let (child, after) = Node::front(rest, depth.checked_sub(1)?)?;
            children.push(child);
            rest = after;
        }
        Some((Node { kind: *kind, body: body.to_vec(), children }, rest))
    }

    /// Its bytes.
    pub fn bytes(&self) -> Vec<u8> {
        let mut bytes = vec![self.kind];
        bytes.extend(&self.body);
        self.children.iter().for_each(|child| bytes.extend(child.bytes()));
        bytes
    }

    /// Where it may stand.
    pub fn place(&self) -> Place {
        match self.kind {
            ..=0x4f => Place::Expression,
            0x50..=0x5f => Place::Boolean,
            0x60..=0x6f => Place::Query,
            _ => Place::Script,
        }
    }

    /// How many records it has, itself included.
    pub fn count(&self) -> usize {
        1 + self.children.iter().map(Node::count).sum::<usize>()
    }

    /// The record at this place, itself at 0, then its parts in order.
    pub fn at(&mut self, place: usize) -> Option<&mut Node> {
        let Some(mut left) = place.checked_sub(1) else { return Some(self) };
        for child in &mut self.children {
            let count = child.count();
            if left < count {
                return child.at(left);
            }
            left -= count;
        }
        None
    }

    /// Smaller or simpler records that may stand in its place: the least of its sort, a part of it, or a block with a variable
    /// fewer or of mode once.
    pub fn smaller(&self) -> Vec<Node> {
        let least: &[u8] = match self.place() {
            Place::Expression => &[0x32, 0, 0],
            Place::Boolean => &[0x51],
            Place::Query => &[0x65],
            Place::Script => &[0x71],
        };
        let mut all: Vec<Node> = Vec::new();
        if ![0x32, 0x50].contains(&self.kind) {
            all.extend(Node::read(least).filter(|least| least != self));
        }
        all.extend(self.children.iter().filter(|child| child.place() == self.place()).cloned());
        if self.kind == 0x73 {
            all.extend((0..PAIR_LIMIT).filter_map(|pair| self.without_pair(pair)));
            let mut once = self.clone();
            once.body[0] = 0;
            all.extend((once != *self).then_some(once));
        }
        all
    }

    /// Leaves out the variables of blocks that nothing in them uses.
    pub fn tidy(&mut self) {
        self.children.iter_mut().for_each(Node::tidy);
        if self.kind == 0x73 {
            for pair in (0..PAIR_LIMIT).rev() {
                let variable = self.body[2 + 2 * pair];
                let used = self.children.iter().any(|child| child.uses(variable));
                if let (Some(without), false) = (self.without_pair(pair), used) {
                    *self = without;
                }
            }
        }
    }

    /// Whether a variable stands in it.
    fn uses(&self, variable: u8) -> bool {
        (self.kind == 0x31 && self.body == [variable]) || self.children.iter().any(|child| child.uses(variable))
    }

    /// A block without one of its variables.
    fn without_pair(&self, pair: usize) -> Option<Node> {
        let mut node = self.clone();
        let count = usize::from(node.body[1]);
        if pair >= count || count > PAIR_LIMIT {
            return None;
        }
        node.body[1] -= 1;
        node.body.drain(2 + 2 * pair..4 + 2 * pair);
        node.body.resize(BLOCK_WIDTH, 0);
        Some(node)
    }

    /// Changes the number of each constant.
    pub fn renumber(&mut self, new: &dyn Fn(u16) -> u16) {
        if let (0x32, [low, high]) = (self.kind, &self.body[..]) {
            self.body = new(u16::from_le_bytes([*low, *high])).to_le_bytes().to_vec();
        }
        self.children.iter_mut().for_each(|child| child.renumber(new));
    }
}
