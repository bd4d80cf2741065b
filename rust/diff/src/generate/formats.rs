//! Random formats: several tables, inline and by name, over shared blocks and a registry.

use plain::tables::Block;

pub use super::trees::random_name;
use super::trees::{random_plans, random_size, random_table_plans, widened};
use crate::case::{op, Case};
use crate::plan::{inline, lay_out, put_name, words, Plan};
use crate::rng::Rng;

/// Blocks laid one after another into a record table.
#[derive(Debug, Default)]
pub struct Pool {
    pub records: Vec<u8>,
    pub names: Vec<u8>,
    pub blocks: Vec<Block>,
}

impl Pool {
    pub fn add(&mut self, plans: &[Plan]) -> Block {
        let block = lay_out(plans, &mut self.records, &mut self.names);
        self.blocks.push(block);
        block
    }

    pub fn case(self) -> Case {
        Case { records: self.records, names: self.names, ..Case::default() }
    }
}

pub(super) fn registry_entry(names: &mut Vec<u8>, name: &[u8], block: Block) -> [u8; 16] {
    let start = put_name(names, name);
    words([start, name.len() as u32, block.first as u32, block.count as u32])
}

fn registry_reference(names: &mut Vec<u8>, name: &[u8]) -> [u8; 16] {
    let start = put_name(names, name);
    words([1, start, name.len() as u32, 0])
}

/// Names for a registry: sorted and different, but for one time in thirty.
fn registry_names(rng: &mut Rng, count: usize, name: &mut dyn FnMut(&mut Rng) -> Vec<u8>) -> Vec<Vec<u8>> {
    let mut names: Vec<Vec<u8>> = (0..count).map(|_| name(rng)).collect();
    if !rng.one_in(30) {
        names.sort();
    }
    if !rng.one_in(30) {
        names.dedup();
    }
    names
}

/// A format whose names are drawn by `name`. One in `fault` of its parts is against the rules.
pub fn format(rng: &mut Rng, fault: usize, name: &mut dyn FnMut(&mut Rng) -> Vec<u8>) -> Case {
    let mut pool = Pool::default();
    for _ in 0..rng.between(1, 4) {
        let size = random_size(rng).min(80);
        let mut plans = random_table_plans(rng, size, fault);
        for plan in plans.iter_mut().filter(|plan| plan.name.is_some()) {
            if rng.one_in(3) {
                plan.name = Some(name(rng));
            }
        }
        let plans = if rng.one_in(300) { widened(rng, plans) } else { plans };
        pool.add(&plans);
    }
    if rng.one_in(10) {
        pool.records.extend((0..16).map(|_| rng.byte())); // in no block, so nobody looks at it
    }
    let blocks = pool.blocks.clone();
    let mut case = pool.case();
    let entries = if rng.one_in(2) { rng.below(5) } else { 0 };
    let known = registry_names(rng, entries, name);
    for known in &known {
        case.registry.extend(registry_entry(&mut case.names, known, *rng.pick(&blocks)));
    }
    let tables = if rng.one_in(40) { 0 } else { rng.between(1, 5) };
    for _ in 0..tables {
        let reference = if known.is_empty() || rng.one_in(2) {
            if rng.one_in(fault) {
                let unknown = name(rng);
                registry_reference(&mut case.names, &unknown)
            } else {
                inline(*rng.pick(&blocks))
            }
        } else if rng.one_in(fault) {
            let perhaps = name(rng);
            registry_reference(&mut case.names, &perhaps)
        } else {
            registry_reference(&mut case.names, rng.pick::<Vec<u8>>(&known))
        };
        case.references.extend(reference);
    }
    case
}

pub fn random_format(rng: &mut Rng) -> Case {
    let fault = [4, 20, 100][rng.below(3)];
    Case { op: op::FORMAT, ..format(rng, fault, &mut random_name) }
}

/// `table_schema`, mostly of a good format, of its tables and of some it has not.
pub fn random_table(rng: &mut Rng) -> Case {
    let fault = [10, 100, 1000][rng.below(3)];
    let case = format(rng, fault, &mut random_name);
    let tables = case.references.len() / 16;
    let table = match rng.below(12) {
        0 => tables as u64,
        1 => (tables + rng.below(70_000)) as u64,
        2 => [1 << 16, 1 << 32, u64::MAX][rng.below(3)],
        3 => (1 << 32) + rng.below(tables + 1) as u64,
        _ => rng.below(tables.max(1)) as u64,
    };
    Case { op: op::TABLE_SCHEMA, a: table, ..case }
}

/// Names of any bytes, most of which the original can't hold: high bytes, cut characters, zeros.
pub fn not_utf8(rng: &mut Rng) -> Case {
    let mut name = |rng: &mut Rng| -> Vec<u8> {
        (0..rng.below(4)).map(|_| *rng.pick(&[0, 1, b'a', 0x7F, 0x80, 0xC3, 0xA9, 0xFE, 0xFF])).collect()
    };
    let case = format(rng, 20, &mut name);
    let tables = case.references.len() / 16;
    let op = [op::FORMAT, op::TABLE_SCHEMA][rng.below(2)];
    Case { op, a: rng.below(tables + 1) as u64, ..case }
}

/// Blocks inside others, shifted, cut, and used more than once. Those that hold are whole blocks and
/// single leaves.
pub fn overlapping(rng: &mut Rng) -> Case {
    let mut pool = Pool::default();
    for _ in 0..rng.between(1, 2) {
        let size = rng.between(1, 6);
        pool.add(&random_plans(rng, size, 20));
    }
    let whole = pool.blocks.clone();
    let mut case = pool.case();
    let has = case.records.len() / 16;
    let block = |rng: &mut Rng| match rng.below(8) {
        0 => Block { first: rng.below(has) as u64, count: rng.between(1, has) as u64 },
        1..=4 => {
            let leaf = |at: &usize| case.records[at * 16 + 8..at * 16 + 16] == [0; 8];
            let leaves: Vec<usize> = (0..has).filter(leaf).collect();
            Block { first: *rng.pick(&leaves) as u64, count: 1 }
        }
        _ => *rng.pick(&whole),
    };
    let lone = block(rng);
    let tables: Vec<Block> = (0..rng.between(1, 3)).map(|_| block(rng)).collect();
    let entries: Vec<Block> = (0..rng.below(3)).map(|_| block(rng)).collect();
    case.references.extend(tables.into_iter().flat_map(inline));
    for (name, block) in [b"p", b"q"].iter().zip(entries) {
        case.registry.extend(registry_entry(&mut case.names, *name, block));
    }
    let op = rng.between(3, 6) as u32;
    if op == op::TABLE_SCHEMA {
        case.a = rng.below(3) as u64;
    } else if op != op::FORMAT {
        (case.a, case.b) = (lone.first, lone.count);
    }
    Case { op, ..case }
}
