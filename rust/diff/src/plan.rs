//! Schemas as they are made: nodes in level order with their child counts, from which the flat
//! records follow.

use plain::tables::Block;

#[derive(Debug, Clone)]
pub struct Plan {
    pub code: u8,
    pub children: u32,
    pub name: Option<Vec<u8>>,
}

impl Plan {
    pub fn new(code: u8, children: u32) -> Self {
        Self { code, children, name: None }
    }

    pub fn named(code: u8, children: u32, name: &[u8]) -> Self {
        Self { code, children, name: Some(name.to_vec()) }
    }
}

/// One schema record, field by field.
pub fn record(code: u8, named: u8, length: u16, start: u32, first: u32, count: u32) -> [u8; 16] {
    let mut bytes = [0; 16];
    bytes[0] = code;
    bytes[1] = named;
    bytes[2..4].copy_from_slice(&length.to_le_bytes());
    bytes[4..8].copy_from_slice(&start.to_le_bytes());
    bytes[8..12].copy_from_slice(&first.to_le_bytes());
    bytes[12..16].copy_from_slice(&count.to_le_bytes());
    bytes
}

/// Four little-endian words: a reference or a registry entry.
pub fn words(fields: [u32; 4]) -> [u8; 16] {
    let mut bytes = [0; 16];
    for (field, place) in fields.iter().zip(bytes.chunks_mut(4)) {
        place.copy_from_slice(&field.to_le_bytes());
    }
    bytes
}

pub fn inline(block: Block) -> [u8; 16] {
    words([0, block.first as u32, block.count as u32, 0])
}

/// Where a name stands in the store. A small store is searched first, so that names share bytes.
pub fn put_name(names: &mut Vec<u8>, name: &[u8]) -> u32 {
    if names.len() < 64 && !name.is_empty() {
        if let Some(at) = names.windows(name.len()).position(|window| window == name) {
            return at as u32;
        }
    }
    names.extend_from_slice(name);
    (names.len() - name.len()) as u32
}

/// Appends the records of a schema, with its names, and says which block they are.
pub fn lay_out(plans: &[Plan], records: &mut Vec<u8>, names: &mut Vec<u8>) -> Block {
    let first = (records.len() / 16) as u64;
    let mut next_child: u32 = 1;
    for plan in plans {
        let (named, length, start) = match &plan.name {
            None => (0, 0, 0),
            Some(name) => (1, name.len() as u16, put_name(names, name)),
        };
        let first_child = if plan.children == 0 { 0 } else { next_child };
        records.extend(record(plan.code, named, length, start, first_child, plan.children));
        next_child = next_child.wrapping_add(plan.children);
    }
    Block { first, count: plans.len() as u64 }
}

/// A chain of `levels` nodes of one type over a leaf.
pub fn chain(levels: usize, code: u8, leaf: u8) -> Vec<Plan> {
    let mut plans = vec![Plan::new(code, 1); levels - 1];
    plans.push(Plan::new(leaf, 0));
    plans
}

/// One node over `children` leaves.
pub fn fan(code: u8, children: usize, leaf: u8) -> Vec<Plan> {
    let mut plans = vec![Plan::new(code, children as u32)];
    plans.resize(children + 1, Plan::new(leaf, 0));
    plans
}

/// One node over these leaves.
pub fn over(code: u8, leaves: &[u8]) -> Vec<Plan> {
    let mut plans = vec![Plan::new(code, leaves.len() as u32)];
    plans.extend(leaves.iter().map(|leaf| Plan::new(*leaf, 0)));
    plans
}

/// A table root over one column, which is the root of `column`.
pub fn table_of(column: &[Plan]) -> Vec<Plan> {
    let mut plans = vec![Plan::new(19, 1)];
    plans.extend_from_slice(column);
    plans[1].name = Some(b"c".to_vec());
    plans
}
