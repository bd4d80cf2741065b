//! Values that no longer fit their schema, and tables that are no longer tables.

use plain::decoding::{kind, ValueTable};

use super::draw::{leaf, nth, Body, Node};
use crate::rng::Rng;

/// Any small value.
fn any_node(rng: &mut Rng) -> Node {
    let kind = rng.below(18) as u8;
    if kind < kind::VARIANT {
        return leaf(rng, kind);
    }
    let count = if kind == kind::VARIANT { 1 } else { rng.below(3) };
    let child = |rng: &mut Rng| {
        let small = rng.below(15) as u8;
        let child = leaf(rng, small);
        let tag = if kind == kind::TUPLE { 0 } else { rng.below(3) as u16 };
        child.chosen(tag, 0)
    };
    let children = (0..count).map(|_| child(rng)).collect();
    Node::new(kind, Body::Children(children))
}

/// The same children under another kind. Tags stay only where a parent chooses by them, and a variant has
/// one child.
fn with_kind(node: &mut Node, new: u8) {
    let Body::Children(children) = &mut node.body else {
        return;
    };
    if new == kind::VARIANT {
        children.truncate(1);
        if children.is_empty() {
            children.push(Node::nothing());
        }
    }
    if new == kind::TUPLE {
        children.iter_mut().for_each(|child| child.tag = 0);
    }
    node.kind = new;
}

/// Tags at the edges of a choice among so many, and at those of one and two bytes.
fn edge_tag(rng: &mut Rng, choices: u32) -> u16 {
    let edges = [choices.wrapping_sub(1), choices, choices + 1, 0, 1, 254, 255, 256, 511, 65_534, 65_535];
    *rng.pick(&edges) as u16
}

/// A fault somewhere in a value; its table stays one.
pub fn value(rng: &mut Rng, root: &mut Node) {
    let mut place = rng.below(root.count());
    let node = nth(root, &mut place).expect("it is among the nodes");
    match rng.below(8) {
        0 | 1 => {
            let (tag, choices) = (node.tag, node.choices);
            *node = any_node(rng).chosen(tag, choices);
        }
        2 | 3 => {
            let is_variant = node.kind == kind::VARIANT;
            let extra = any_node(rng);
            match node.children() {
                Some(children) if !is_variant => {
                    let at = rng.below(children.len() + 1);
                    match rng.below(3) {
                        0 => children.insert(at, extra),
                        1 if at < children.len() => drop(children.remove(at)),
                        _ => children.extend(children.first().cloned()),
                    }
                }
                _ => *node = extra.chosen(node.tag, node.choices),
            }
        }
        4 | 5 => retag(rng, node),
        6 => with_kind(node, rng.between(15, 17) as u8),
        _ => {
            let mut up = rng.below(4);
            let mut wrapped = node.clone();
            while up > 0 {
                up -= 1;
                let kind = rng.between(15, 17) as u8;
                let (tag, choices) = (wrapped.tag, wrapped.choices);
                wrapped.tag = if kind == kind::TUPLE { 0 } else { rng.below(2) as u16 };
                wrapped = Node::new(kind, Body::Children(vec![wrapped])).chosen(tag, choices);
            }
            *node = wrapped;
        }
    }
}

/// Another tag for one of the children that are chosen by one.
fn retag(rng: &mut Rng, node: &mut Node) {
    let chooses = node.kind != kind::TUPLE;
    let Some(children) = node.children() else {
        return;
    };
    if chooses && !children.is_empty() {
        let at = rng.below(children.len());
        let child = &mut children[at];
        child.tag = edge_tag(rng, child.choices);
    }
}

/// Sizes that records turn on.
const SIZES: [u32; 8] = [0, 1, 2, 15, 17, 31, 33, u32::MAX];

/// Something about the bytes of a table that may make it none.
pub fn table(rng: &mut Rng, table: &mut ValueTable) {
    let count = table.records.len() / 16;
    let at = if count == 0 { 0 } else { 16 * rng.below(count) };
    let draw = rng.below(16);
    if count == 0 && draw < 12 {
        table.records.extend([0; 16]);
        return;
    }
    match draw {
        0 => table.records[at + 1] = rng.byte(),
        1 => table.records[at + 2 + rng.below(2)] = rng.byte(),
        2 | 3 => {
            let field = table.records[at + 4..at + 8].try_into().expect("four bytes");
            let size = u32::from_le_bytes(field);
            let new = match rng.below(3) {
                0 => size.wrapping_add(1),
                1 => size.wrapping_sub(1),
                _ => *rng.pick(&SIZES),
            };
            table.records[at + 4..at + 8].copy_from_slice(&new.to_le_bytes());
        }
        4 | 5 => {
            let place = at + 8 + rng.below(8);
            table.records[place] = table.records[place].wrapping_add([1, 255, 2, 128][rng.below(4)]);
        }
        6 => table.records[at] = [15, 16, 17, 18, 19, 255, 13, 6][rng.below(8)],
        7 => drop(table.records.drain(at..at + 16)),
        8 => table.records.extend_from_within(at..at + 16),
        9 => {
            let other = 16 * rng.below(count);
            for byte in 0..16 {
                table.records.swap(at + byte, other + byte);
            }
        }
        10 => table.records.truncate(table.records.len() - rng.between(1, 15)),
        11 => table.records.truncate(at),
        12 => table.records.extend(vec![0; rng.between(1, 16)]),
        13 => table.payload.push(rng.byte()),
        14 => drop(table.payload.pop()),
        _ => {
            let place = rng.below(table.records.len().max(1));
            if let Some(byte) = table.records.get_mut(place) {
                *byte = rng.byte();
            }
        }
    }
}
