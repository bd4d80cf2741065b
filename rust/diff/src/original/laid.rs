//! What the original has no rules for: numbers out of their bounds (1), flat tables that were laid out from no tree
//! (2, and 18 for values), trees that are too deep (3), names that its strings can't hold (33). Where none of that is
//! so the original is asked, whatever the plain reading says. Tables were laid out from trees where laying out again
//! what they seem to hold gives the same bytes; which names are UTF-8 the standard library says.

use oracle::Value;
use plain::answer::number::{BAD_SCHEMA_TABLE, NAME_NOT_UTF8, SETTING, TOO_DEEP};
use plain::decoding::ValueTable;
use plain::settings::{Settings, MOST, MOST_NODE_CHARGE};
use plain::tables::Block;

use super::rows::flatten;
use super::writing::next_value;
use crate::case::{op, Case};
use crate::indexing::{Call, IndexCase};
use crate::judge::lone_block;
use crate::plan::{inline, record, words};
use crate::writing::WriteCase;

/// The refusals of formats and settings that the original does not know.
pub const UNKNOWN: [u64; 4] = [SETTING, BAD_SCHEMA_TABLE, TOO_DEEP, NAME_NOT_UTF8];

/// Levels of a tree, nodes of a block.
const MOST_LEVELS: usize = 64;
const MOST_NODES: usize = 131_072;

fn word(bytes: &[u8], at: usize) -> u32 {
    u32::from_le_bytes(bytes[at..at + 4].try_into().expect("four bytes"))
}

/// A stretch of the name store, if it is one.
fn name(names: &[u8], start: u32, length: u32) -> Option<&[u8]> {
    names.get(start as usize..start as usize + length as usize)
}

/// What trees were laid out, of which the deepest has so many levels.
#[derive(Debug, Clone, Copy)]
struct Trees {
    levels: usize,
    /// Whether a string of the original can hold each of their names.
    are_text: bool,
}

impl Trees {
    const NONE: Self = Self { levels: 0, are_text: true };

    fn meet(&mut self, more: Self) {
        self.levels = self.levels.max(more.levels);
        self.are_text &= more.are_text;
    }

    fn meet_name(&mut self, name: &[u8]) {
        self.are_text &= std::str::from_utf8(name).is_ok();
    }
}

/// The tree that a block was laid out from; none where it was laid out from no tree.
fn tree(records: &[u8], names: &[u8], block: Block) -> Option<Trees> {
    let [first, count] = [block.first, block.count].map(|number| usize::try_from(number).ok());
    let (first, count) = (first?, count.filter(|count| (1..=MOST_NODES).contains(count))?);
    let given = records.get(first.checked_mul(16)?..first.checked_add(count)?.checked_mul(16)?)?;
    // The level of each node that was met as a child, in the order in which they were.
    let mut levels = vec![1];
    let mut tree = Trees::NONE;
    for (index, given) in given.chunks_exact(16).enumerate() {
        let level = *levels.get(index)?;
        let children = word(given, 12);
        if children as usize > count - levels.len() {
            return None;
        }
        let first_child = if children == 0 { 0 } else { levels.len() as u32 };
        let (start, length) = (word(given, 4), u16::from_le_bytes([given[2], given[3]]));
        let again = match given[1] {
            0 => record(given[0], 0, 0, 0, first_child, children),
            _ => record(given[0], 1, length, start, first_child, children),
        };
        if given[0] > 19 || *given != again {
            return None;
        }
        tree.meet_name(name(names, start, u32::from(length))?);
        levels.resize(levels.len() + children as usize, level + 1);
    }
    let levels = (levels.len() == count).then(|| levels.into_iter().max())??;
    Some(Trees { levels, ..tree })
}

/// The refusal that trees stand for, if they do for one.
fn refusal_of(trees: Option<Trees>) -> Option<u64> {
    match trees {
        None => Some(BAD_SCHEMA_TABLE),
        Some(trees) if trees.levels > MOST_LEVELS => Some(TOO_DEEP),
        Some(trees) => (!trees.are_text).then_some(NAME_NOT_UTF8),
    }
}

fn is_whole(table: &[u8]) -> bool {
    table.len() % 16 == 0
}

/// 2, 3 or 33, where a lone block is to be refused so.
pub fn block_refusal(case: &Case, block: Block) -> Option<u64> {
    let tree = tree(&case.records, &case.names, block);
    refusal_of(tree.filter(|_| is_whole(&case.records)))
}

/// The same of a format. All forms come before all depths, and these before all names.
pub fn format_refusal(case: &Case) -> Option<u64> {
    let Case { records, names, references, registry, .. } = case;
    if ![records, references, registry].into_iter().all(|table| is_whole(table)) {
        return Some(2);
    }
    let meet = |trees: &mut Trees, first: u32, count: u32| {
        let block = Block { first: first.into(), count: count.into() };
        trees.meet(tree(records, names, block)?);
        Some(block)
    };
    let reference = |given: &[u8], trees: &mut Trees| {
        let (one, other) = (word(given, 4), word(given, 8));
        let again = if given[0] == 0 {
            inline(meet(trees, one, other)?)
        } else {
            trees.meet_name(name(names, one, other)?);
            words([1, one, other, 0])
        };
        (*given == again).then_some(())
    };
    // A map's entries: each name once, in order.
    let mut before: Option<&[u8]> = None;
    let mut entry = |given: &[u8], trees: &mut Trees| {
        let name = name(names, word(given, 0), word(given, 4))?;
        trees.meet_name(name);
        let ascends = before.replace(name).is_none_or(|before| before < name);
        meet(trees, word(given, 8), word(given, 12)).filter(|_| ascends).map(|_| ())
    };
    let mut trees = Trees::NONE;
    let laid_out = references.chunks_exact(16).all(|given| reference(given, &mut trees).is_some())
        && registry.chunks_exact(16).all(|given| entry(given, &mut trees).is_some());
    refusal_of(laid_out.then_some(trees))
}

fn are_in_bounds(settings: &Settings) -> bool {
    let Settings { node_charge, max_string32_bytes, max_yson32_bytes, max_row_bytes } = *settings;
    let limits = [max_string32_bytes, max_yson32_bytes, max_row_bytes];
    (1..=MOST_NODE_CHARGE).contains(&node_charge) && limits.iter().all(|limit| *limit <= MOST)
}

/// What a case has to be refused by for what the original does not know; none where it is for the original to say.
pub fn refusal(case: &Case) -> Option<u64> {
    let position = if case.op == op::RUN { 0 } else { case.a };
    match case.op {
        op::SKIP | op::RUN | op::DECODE => {
            let numbers_are_good = are_in_bounds(&case.settings()) && position <= case.input.len() as u64;
            if numbers_are_good {
                format_refusal(case)
            } else {
                Some(1)
            }
        }
        op::FORMAT | op::TABLE_SCHEMA => format_refusal(case),
        op::VALIDATE | op::ENCODER => block_refusal(case, lone_block(case)),
        op::ENCODE => write_refusal(&WriteCase::of(case)),
        op::CHECK_TABLE => {
            let table = ValueTable { records: case.references.clone(), payload: case.registry.clone() };
            value(&table).is_none().then_some(18)
        }
        _ if case.is_of_index() => index_refusal(&IndexCase::of(case)),
        _ => None,
    }
}

/// The same of an index call, which is refused, too, for an old count beyond the index slice.
pub fn index_refusal(case: &IndexCase) -> Option<u64> {
    let is_beyond = case.call == Call::Extend && case.number > case.index.len() as u64 / 16;
    if is_beyond || !are_in_bounds(&case.stream.settings()) {
        return Some(1);
    }
    format_refusal(&case.stream)
}

/// The same of a writing call; whether its value table is one comes after what the original says of the schema.
pub fn write_refusal(case: &WriteCase) -> Option<u64> {
    if !are_in_bounds(&case.schema.settings()) || case.position > case.output as u64 {
        return Some(1);
    }
    block_refusal(&case.schema, lone_block(&case.schema))
}

/// The tree of values that a table was laid out from; none where there is none, or it is too deep.
pub fn value(table: &ValueTable) -> Option<Value> {
    let records: Vec<&[u8]> = table.records.chunks(16).collect();
    let mut left = records.iter();
    let value = next_value(&mut left, &table.payload, MOST_LEVELS)?;
    let mut again = ValueTable::default();
    flatten(&value, 0, &mut again);
    (left.len() == 0 && again == *table).then_some(value)
}

#[cfg(test)]
mod tests {
    use super::*;
    use crate::generate;
    use crate::judge::plain_answer;
    use crate::rng::Rng;
    use std::collections::BTreeMap;

    /// Over good and damaged cases of all kinds the two ways to tell are one.
    #[test]
    fn layouts_are_told_as_the_plain_reading_tells_them() {
        let mut met = BTreeMap::new();
        for number in 0..30_000 {
            let rng = &mut Rng::for_case(11, number);
            let (_, case) = if number % 2 == 0 { generate::random(rng) } else { generate::rows::random(rng) };
            let plain = plain_answer(&case).number;
            let told = refusal(&case);
            assert_eq!(told, Some(plain).filter(|number| UNKNOWN.contains(number)), "{case:?}");
            *met.entry(told).or_insert(0) += 1;
        }
        let all = UNKNOWN.map(Some).into_iter().chain([None]);
        assert!(all.into_iter().all(|told| met.get(&told).is_some_and(|count| *count > 20)), "{met:?}");
    }
}
