//! Formats for the turn of names: good ones and such as break other rules, with names that are no text at every place
//! that is looked at, and at those that are not.

use plain::tables::{entries, record_count, references, Block, Reference};

use super::damage::damage_record;
use super::formats::{format, registry_entry, Pool};
use super::names::{bad, good};
use super::trees::{random_size, random_table_plans, widened};
use super::Kind;
use crate::case::{op, Case};
use crate::plan::{chain, fan, inline, lay_out, table_of, words};
use crate::rng::Rng;

/// A name at the end of the store: where it begins, and its bytes. None of its bytes is another name's too.
fn put(case: &mut Case, name: &[u8]) -> [u32; 2] {
    let start = case.names.len() as u32;
    case.names.extend_from_slice(name);
    [start, name.len() as u32]
}

fn set(table: &mut [u8], index: usize, at: usize, fields: [u32; 2]) {
    for (field, place) in fields.iter().zip([at, at + 4]) {
        table[index * 16 + place..index * 16 + place + 4].copy_from_slice(&field.to_le_bytes());
    }
}

/// Gives a record a name.
fn name_record(case: &mut Case, index: usize, name: &[u8]) {
    let [start, length] = put(case, name);
    let record = &mut case.records[index * 16..index * 16 + 16];
    record[1] = 1;
    record[2..4].copy_from_slice(&(length as u16).to_le_bytes());
    record[4..8].copy_from_slice(&start.to_le_bytes());
}

/// One of the records of a block that is named by a table, or else by an entry.
fn record_of(rng: &mut Rng, blocks: &[Block]) -> Option<usize> {
    let block = blocks.get(rng.below(blocks.len().max(1)))?;
    Some((block.first + rng.below((block.count as usize).max(1)) as u64) as usize)
}

fn inline_blocks(case: &Case) -> Vec<Block> {
    let inline = references(&case.references).into_iter().filter(|one| one.kind == Reference::INLINE);
    inline.map(|reference| reference.block()).collect()
}

fn entry_blocks(case: &Case) -> Vec<Block> {
    entries(&case.registry).into_iter().map(|entry| entry.block).collect()
}

/// A bad name for one of the nodes of these blocks, if there are some.
fn spoil_node(rng: &mut Rng, case: &mut Case, blocks: &[Block]) -> bool {
    let has = record_count(&case.records) as usize;
    let Some(index) = record_of(rng, blocks).filter(|index| *index < has) else {
        return false;
    };
    name_record(case, index, &bad(rng));
    true
}

/// A bad name for a registry entry, mostly one that comes where the old one did: this begins as that does.
fn spoil_entry(rng: &mut Rng, case: &mut Case) -> bool {
    let known = entries(&case.registry);
    if known.is_empty() {
        return false;
    }
    let index = rng.below(known.len());
    let old = known[index].name.of(&case.names).to_vec();
    let name = if rng.one_in(8) { bad(rng) } else { [old.clone(), bad(rng)].concat() };
    let span = put(case, &name);
    set(&mut case.registry, index, 0, span);
    if rng.one_in(2) {
        // Whoever referred to it still does, by a string of his own.
        for table in 0..references(&case.references).len() {
            let reference = plain::tables::reference(&case.references, table as u64);
            if reference.kind == Reference::REGISTRY && reference.name().of(&case.names) == old {
                let span = put(case, &name);
                set(&mut case.references, table, 4, span);
            }
        }
    }
    true
}

/// A bad name instead of a table's reference, or one table more; nobody knows it.
fn spoil_reference(rng: &mut Rng, case: &mut Case) {
    let name = bad(rng);
    let [start, length] = put(case, &name);
    let reference = words([1, start, length, 0]);
    let tables = case.references.len() / 16;
    let at = 16 * rng.below(tables + 1);
    if rng.one_in(2) && at < case.references.len() {
        case.references[at..at + 16].copy_from_slice(&reference);
    } else {
        case.references.splice(at..at, reference);
    }
}

/// Bad bytes that are nobody's name.
fn spoil_nothing(rng: &mut Rng, case: &mut Case) {
    let name = bad(rng);
    if rng.one_in(2) {
        put(case, &name);
        return;
    }
    case.records.extend([0; 16]);
    let last = case.records.len() / 16 - 1;
    name_record(case, last, &name);
}

/// A bad name somewhere, and where.
fn spoil(rng: &mut Rng, case: &mut Case) -> Kind {
    let (inline, registered) = (inline_blocks(case), entry_blocks(case));
    match rng.below(6) {
        0 | 1 if spoil_node(rng, case, &inline) => "bad name of a node of a table",
        2 if spoil_node(rng, case, &registered) => "bad name of a node of an entry",
        3 if spoil_entry(rng, case) => "bad name of an entry",
        4 => {
            spoil_reference(rng, case);
            "bad reference"
        }
        _ => {
            spoil_nothing(rng, case);
            "bad bytes that are no name"
        }
    }
}

/// Another fault beside the names: of form, of depth, of a rule, or no tables at all.
fn another_fault(rng: &mut Rng, case: &mut Case) {
    let column = match rng.below(12) {
        0 | 1 => return damage_record(rng, case),
        2 => return case.references.clear(),
        3 => return case.references.extend(words([1, 0, 0, 0])),
        4 | 5 => chain(64, 19, 1),
        6 => chain(63, 19, 1),
        7 => fan(15, 257, 0),
        8 => fan(17, 256, 0),
        9 => fan(4, 1, 0),
        10 => fan(13, 2, 0),
        _ => fan(19, 2, 0),
    };
    let block = lay_out(&table_of(&column), &mut case.records, &mut case.names);
    // Behind all others, or before them; some as an entry that comes first or last of all.
    match rng.below(4) {
        0 => case.references.extend(inline(block)),
        1 => drop(case.references.splice(0..0, inline(block))),
        2 if case.registry.is_empty() => {
            let entry = registry_entry(&mut case.names, b"entry", block);
            case.registry.extend(entry);
        }
        _ => {
            let entry = registry_entry(&mut case.names, "\u{10FFFF}\u{10FFFF}".as_bytes(), block);
            case.registry.extend(entry);
        }
    }
}

/// What an encoder is given: a block among others.
fn encoder(rng: &mut Rng) -> (Kind, Case) {
    let mut pool = Pool::default();
    let fault = [3, 30, 200][rng.below(3)];
    pool.add(&random_table_plans(rng, 3, 3));
    let size = random_size(rng);
    let plans = random_table_plans(rng, size, fault);
    let plans = match rng.below(20) {
        0 => widened(rng, plans),
        1 => table_of(&chain(64, 19, 1)),
        _ => plans,
    };
    let block = pool.add(&plans);
    let mut case = Case { op: op::ENCODER, a: block.first, b: block.count, ..pool.case() };
    if rng.one_in(10) {
        damage_record(rng, &mut case);
    }
    let kind = match rng.below(4) {
        0 => "an encoder's block",
        1 => {
            name_record(&mut case, rng.below(block.first as usize), &bad(rng));
            "bad name beside an encoder's block"
        }
        _ => {
            spoil_node(rng, &mut case, &[block]);
            "bad name of a node of an encoder's block"
        }
    };
    (kind, case)
}

/// One in so many is an encoder's.
const ENCODERS: usize = 40;

/// A format, half of them with names that are no text, or an encoder's block.
pub fn random(rng: &mut Rng) -> (Kind, Case) {
    if rng.one_in(ENCODERS) {
        return encoder(rng);
    }
    let fault = [4, 20, 100][rng.below(3)];
    let mut case = Case { op: op::FORMAT, ..format(rng, fault, &mut good) };
    if rng.one_in(4) {
        another_fault(rng, &mut case);
    }
    if rng.one_in(2) {
        return ("good names", case);
    }
    let kind = spoil(rng, &mut case);
    for _ in 0..[0, 0, 1, 2][rng.below(4)] {
        spoil(rng, &mut case);
    }
    if rng.one_in(16) {
        another_fault(rng, &mut case);
    }
    (kind, case)
}
