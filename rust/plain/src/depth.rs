//! Depth: the root counts as 1. Asked only of formed blocks.

use crate::forms::block_records;
use crate::tables::Block;

pub const MOST_LEVELS: u64 = 64;

/// How deep a formed block is. Parents stand before their children, so one pass hands depths down.
pub fn depth(records: &[u8], block: Block) -> u64 {
    let inside = block_records(records, block);
    let mut depths = vec![1; inside.len()];
    for (index, record) in inside.iter().enumerate() {
        for child in record.first_child..record.first_child + record.child_count {
            depths[child as usize] = depths[index] + 1;
        }
    }
    depths.into_iter().max().expect("a block has a root")
}
