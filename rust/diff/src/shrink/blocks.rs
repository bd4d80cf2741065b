//! Fewer records, tables and entries.

use plain::forms::block_lies_in;
use plain::tables::{schema_record, Block, SchemaRecord};

use crate::case::{op, Case};

/// At most this many places are tried for a stretch of one length; fewer where much is to be copied.
const MOST_PLACES: usize = 64;
const FEW_PLACES: usize = 8;
const MANY: usize = 4_096;

/// In larger blocks only the root gives way to its children.
const MOST_PARENTS: u64 = 200;

pub fn candidates(case: &Case, found: &mut Vec<Case>) {
    for (from, count) in stretches(case.references.len() / 16) {
        let mut smaller = case.clone();
        smaller.references.drain(from * 16..(from + count) * 16);
        found.push(smaller);
    }
    for (from, count) in stretches(case.registry.len() / 16) {
        let mut smaller = case.clone();
        smaller.registry.drain(from * 16..(from + count) * 16);
        found.push(smaller);
    }
    let has = case.records.len() / 16;
    let blocks = blocks(case);
    let mut outside = vec![true; has];
    for block in &blocks {
        outside[block.first as usize..(block.first + block.count) as usize].fill(false);
    }
    found.push(without(case, &blocks, &outside));
    for (from, count) in stretches(has) {
        let mut gone = vec![false; has];
        gone[from..from + count].fill(true);
        for block in &blocks {
            with_those_below(case, *block, &mut gone);
        }
        found.push(without(case, &blocks, &gone));
    }
    for block in &blocks {
        let parents = if block.count <= MOST_PARENTS { block.count } else { 1 };
        for index in 0..parents {
            found.extend(child_for_parent(case, &blocks, *block, index));
        }
    }
}

/// Stretches of `count` things to leave out: all, halves, quarters and so on to single ones.
pub fn stretches(count: usize) -> Vec<(usize, usize)> {
    let mut found = Vec::new();
    let mut length = count;
    let places = if count > MANY { FEW_PLACES } else { MOST_PLACES };
    while length > 0 {
        let step = if count <= MOST_PLACES { 1 } else { length };
        found.extend((0..=count - length).step_by(step).take(places).map(|from| (from, length)));
        // From the back, too: where all is alike, the last ones go most easily.
        found.push((count - length, length));
        length /= 2;
    }
    found
}

/// The blocks that a case names and that lie in its table, each once.
fn blocks(case: &Case) -> Vec<Block> {
    let mut blocks: Vec<Block> = if case.op < op::FORMAT {
        vec![Block { first: case.a, count: case.b }]
    } else {
        let inline = plain::tables::references(&case.references).into_iter().filter(|one| one.kind == 0);
        let entries = plain::tables::entries(&case.registry).into_iter().map(|entry| entry.block);
        inline.map(|reference| reference.block()).chain(entries).collect()
    };
    blocks.retain(|block| block_lies_in(&case.records, *block));
    blocks.sort_by_key(|block| (block.first, block.count));
    blocks.dedup();
    blocks
}

fn children(record: &SchemaRecord, block: Block) -> std::ops::Range<u64> {
    let end = (record.first_child + record.child_count).min(block.count);
    record.first_child.max(1).min(end)..end
}

fn with_those_below(case: &Case, block: Block, gone: &mut [bool]) {
    for index in 0..block.count {
        if gone[(block.first + index) as usize] {
            for child in children(&schema_record(&case.records, block.first + index), block) {
                gone[(block.first + child) as usize] = true;
            }
        }
    }
}

fn set(bytes: &mut [u8], at: usize, value: u64) {
    bytes[at..at + 4].copy_from_slice(&(value as u32).to_le_bytes());
}

/// The case without some records: child fields, and all numbers of records, count what is left.
fn without(case: &Case, blocks: &[Block], gone: &[bool]) -> Case {
    // How many of the records before each place are left.
    let mut left: Vec<u64> = vec![0];
    for gone in gone {
        left.push(left[left.len() - 1] + u64::from(!gone));
    }
    let kept_in = |first: u64, end: u64| left[end as usize] - left[first as usize];
    let mut smaller = case.clone();
    for block in blocks {
        for index in 0..block.count {
            let at = (block.first + index) as usize;
            let record = schema_record(&case.records, block.first + index);
            let range = children(&record, *block);
            if record.child_count == 0 || range.end - range.start != record.child_count {
                continue; // not a node whose children can be told
            }
            let count = kept_in(block.first + range.start, block.first + range.end);
            let first = if count == 0 { 0 } else { kept_in(block.first, block.first + range.start) };
            set(&mut smaller.records, at * 16 + 8, first);
            set(&mut smaller.records, at * 16 + 12, count);
        }
    }
    let mut keep = gone.iter().map(|gone| !gone);
    let kept = smaller.records.chunks(16).filter(|_| keep.next().unwrap_or(true));
    smaller.records = kept.flatten().copied().collect();
    move_blocks(&mut smaller, blocks, &|block| {
        let first = left[block.first as usize];
        Block { first, count: kept_in(block.first, block.first + block.count) }
    });
    smaller
}

/// Writes each block's new numbers wherever the case names it.
fn move_blocks(case: &mut Case, blocks: &[Block], moved: &dyn Fn(Block) -> Block) {
    if case.op < op::FORMAT {
        let block = Block { first: case.a, count: case.b };
        if blocks.contains(&block) {
            let moved = moved(block);
            (case.a, case.b) = (moved.first, moved.count);
        }
        return;
    }
    for (index, reference) in plain::tables::references(&case.references).iter().enumerate() {
        if reference.kind == 0 && blocks.contains(&reference.block()) {
            let moved = moved(reference.block());
            set(&mut case.references, index * 16 + 4, moved.first);
            set(&mut case.references, index * 16 + 8, moved.count);
        }
    }
    for (index, entry) in plain::tables::entries(&case.registry).iter().enumerate() {
        if blocks.contains(&entry.block) {
            let moved = moved(entry.block);
            set(&mut case.registry, index * 16 + 8, moved.first);
            set(&mut case.registry, index * 16 + 12, moved.count);
        }
    }
}

/// One of a node's children in the node's own place, which takes a level out. Only for blocks in
/// level order, which stay so.
fn child_for_parent(case: &Case, blocks: &[Block], block: Block, index: u64) -> Vec<Case> {
    let inside = plain::forms::block_records(&case.records, block);
    if !plain::forms::is_level_order(&inside) {
        return Vec::new();
    }
    let range = children(&inside[index as usize], block);
    range.take(4).map(|child| replaced(case, blocks, block, &inside, index, child)).collect()
}

fn replaced(
    case: &Case,
    blocks: &[Block],
    block: Block,
    inside: &[SchemaRecord],
    parent: u64,
    child: u64,
) -> Case {
    let instead = |index: u64| if index == parent { child } else { index };
    // Level by level from the root, as the block itself goes.
    let mut order = vec![instead(0)];
    let mut at = 0;
    while at < order.len() {
        order.extend(children(&inside[order[at] as usize], block).map(instead));
        at += 1;
    }
    let mut records = Vec::new();
    let mut next = 1;
    for index in &order {
        let start = (block.first + index) as usize * 16;
        let count = inside[*index as usize].child_count;
        let mut record = case.records[start..start + 16].to_vec();
        set(&mut record, 8, if count == 0 { 0 } else { next });
        next += count;
        records.extend(record);
    }
    let mut smaller = case.clone();
    let range = block.first as usize * 16..(block.first + block.count) as usize * 16;
    smaller.records.splice(range, records);
    let count = order.len() as u64;
    move_blocks(&mut smaller, blocks, &|other| {
        if other == block {
            Block { first: block.first, count }
        } else if other.first >= block.first + block.count {
            Block { first: other.first - (block.count - count), count: other.count }
        } else {
            other
        }
    });
    smaller
}
