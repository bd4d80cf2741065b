//! Values drawn from a schema, as trees that can still be damaged, and their flat tables.

use plain::decoding::{kind, ValueTable};
use plain::tables::{schema_record, Block};
use plain::wire_type::{fixed_width, STRING32, YSON32};

use crate::generate::rows::values::DOUBLES;
use crate::rng::Rng;

#[derive(Debug, Clone)]
pub struct Node {
    pub kind: u8,
    pub tag: u16,
    /// From how many children the tag chose; 0 where there is no tag.
    pub choices: u32,
    pub body: Body,
}

#[derive(Debug, Clone)]
pub enum Body {
    Data([u8; 8]),
    Payload(Vec<u8>),
    Children(Vec<Node>),
}

impl Node {
    pub fn new(kind: u8, body: Body) -> Self {
        Self { kind, tag: 0, choices: 0, body }
    }

    pub fn nothing() -> Self {
        Self::new(0, Body::Data([0; 8]))
    }

    pub fn chosen(self, tag: u16, choices: u32) -> Self {
        Self { tag, choices, ..self }
    }

    pub fn children(&mut self) -> Option<&mut Vec<Node>> {
        match &mut self.body {
            Body::Children(children) => Some(children),
            _ => None,
        }
    }

    pub fn count(&self) -> usize {
        match &self.body {
            Body::Children(children) => 1 + children.iter().map(Node::count).sum::<usize>(),
            _ => 1,
        }
    }

    /// The longest string32 and the longest yson32.
    pub fn longest(&self) -> [u64; 2] {
        [STRING32, YSON32].map(|kind| self.longest_of(kind))
    }

    fn longest_of(&self, kind: u8) -> u64 {
        match &self.body {
            Body::Payload(bytes) if self.kind == kind => bytes.len() as u64,
            Body::Children(children) => {
                children.iter().map(|child| child.longest_of(kind)).max().unwrap_or(0)
            }
            _ => 0,
        }
    }
}

/// Records in preorder, and the payload store.
pub fn lay_out(root: &Node) -> ValueTable {
    let mut table = ValueTable::default();
    lay_out_node(root, &mut table);
    table
}

fn lay_out_node(node: &Node, table: &mut ValueTable) {
    let (size, data) = match &node.body {
        Body::Data(data) => (0, *data),
        Body::Payload(bytes) => (bytes.len(), (table.payload.len() as u64).to_le_bytes()),
        Body::Children(children) => (children.len(), [0; 8]),
    };
    table.records.extend([node.kind, 0]);
    table.records.extend(node.tag.to_le_bytes());
    table.records.extend((size as u32).to_le_bytes());
    table.records.extend(data);
    match &node.body {
        Body::Data(_) => {}
        Body::Payload(bytes) => table.payload.extend(bytes),
        Body::Children(children) => children.iter().for_each(|child| lay_out_node(child, table)),
    }
}

/// A number's bytes: the edges of its width, signed and not, and any.
pub fn number(rng: &mut Rng, width: usize) -> Vec<u8> {
    let mut bytes = vec![0; width];
    match rng.below(8) {
        0 => {}
        1 => bytes.fill(0xFF),
        2 => bytes[width - 1] = 0x80,
        3 => {
            bytes.fill(0xFF);
            bytes[width - 1] = 0x7F;
        }
        4 => bytes[0] = 1,
        _ => bytes.iter_mut().for_each(|byte| *byte = rng.byte()),
    }
    bytes
}

fn data(bytes: &[u8]) -> Body {
    let mut data = [0; 8];
    data[..bytes.len()].copy_from_slice(bytes);
    Body::Data(data)
}

fn blob(rng: &mut Rng) -> Body {
    let length = match rng.below(40) {
        0 => rng.between(200, 300),
        1..=8 => 0,
        _ => rng.between(1, 9),
    };
    Body::Payload((0..length).map(|_| rng.byte()).collect())
}

/// A value without children, of a kind below 15.
pub fn leaf(rng: &mut Rng, kind: u8) -> Node {
    let body = match kind {
        0 => Body::Data([0; 8]),
        1 => data(&[rng.below(2) as u8]),
        6 => Body::Payload(number(rng, 16)),
        7 => Body::Payload(number(rng, 32)),
        12 if rng.one_in(2) => data(&rng.pick(&DOUBLES).to_le_bytes()),
        13 | 14 => blob(rng),
        code => {
            let width = fixed_width(u64::from(code)).expect("the rest have a fixed width");
            data(&number(rng, width as usize))
        }
    };
    Node::new(kind, body)
}

/// So many nodes are drawn before lists are kept empty.
const MANY_NODES: usize = 200;

pub struct Drawing<'a> {
    pub rng: &'a mut Rng,
    pub records: &'a [u8],
    pub block: Block,
    pub nodes: usize,
}

impl Drawing<'_> {
    /// A value of the node at `index` of the block. Under a variant without children, which no value
    /// fits, some value is drawn all the same.
    pub fn node(&mut self, index: u64) -> Node {
        self.nodes += 1;
        let record = schema_record(self.records, self.block.first + index);
        let count = record.child_count as usize;
        match record.code {
            15 | 16 if count == 0 => {
                let child = Node::nothing().chosen(self.rng.below(3) as u16, 0);
                Node::new(kind::VARIANT, Body::Children(vec![child]))
            }
            15 | 16 => {
                let child = self.chosen(record.first_child, count);
                Node::new(kind::VARIANT, Body::Children(vec![child]))
            }
            17 | 18 => {
                let room = self.nodes < MANY_NODES && count > 0;
                let items = match (room, self.rng.below(30)) {
                    (false, _) => 0,
                    (true, 0) => self.rng.between(20, 60),
                    (true, draw) => draw % 4,
                };
                let items = (0..items).map(|_| self.chosen(record.first_child, count)).collect();
                Node::new(kind::REPEATED, Body::Children(items))
            }
            19 => {
                let children = (0..count as u64).map(|child| self.node(record.first_child + child)).collect();
                Node::new(kind::TUPLE, Body::Children(children))
            }
            code => leaf(self.rng, code),
        }
    }

    /// A child by its tag: now and then the first or the last.
    fn chosen(&mut self, first: u64, count: usize) -> Node {
        let tag = match self.rng.below(6) {
            0 => 0,
            1 => count - 1,
            _ => self.rng.below(count),
        };
        self.node(first + tag as u64).chosen(tag as u16, count as u32)
    }
}

pub fn draw(rng: &mut Rng, records: &[u8], block: Block) -> Node {
    Drawing { rng, records, block, nodes: 0 }.node(0)
}

/// The n-th node in preorder.
pub fn nth<'a>(node: &'a mut Node, left: &mut usize) -> Option<&'a mut Node> {
    if *left == 0 {
        return Some(node);
    }
    *left -= 1;
    let Body::Children(children) = &mut node.body else {
        return None;
    };
    for child in children {
        if let Some(found) = nth(child, left) {
            return Some(found);
        }
    }
    None
}
