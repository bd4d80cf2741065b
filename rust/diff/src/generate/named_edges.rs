//! A small format with a name at every place that there is, each of them in turn no text, or text of an unusual sort;
//! and names that are no text beside every other fault, for whose turn it is.

use plain::tables::Block;

use super::names::{BAD, GOOD};
use super::{Emit, NAMES};
use crate::case::{op, Case};
use crate::plan::{chain, fan, inline, lay_out, put_name, record, table_of, words, Plan};

/// The names of the format, each by what it is of.
#[derive(Debug, Clone)]
struct Names {
    root: Vec<u8>,
    column: Vec<u8>,
    below: Vec<u8>,
    /// A column of the entry's that a table refers to.
    column_of_used: Vec<u8>,
    root_of_unused: Vec<u8>,
    used: Vec<u8>,
    unused: Vec<u8>,
    /// A record that is in no block, and bytes of the store that are no name.
    no_block: Vec<u8>,
    no_name: Vec<u8>,
}

impl Names {
    fn usual() -> Self {
        let [root, column, below, column_of_used, root_of_unused, used, unused, no_block, no_name] =
            ["t", "a", "n", "c", "x", "r", "u", "o", "-"].map(|name| name.as_bytes().to_vec());
        Self { root, column, below, column_of_used, root_of_unused, used, unused, no_block, no_name }
    }

    /// One at a time, in the order of the places.
    fn place(&mut self, index: usize) -> &mut Vec<u8> {
        match index {
            0 => &mut self.root,
            1 => &mut self.column,
            2 => &mut self.below,
            3 => &mut self.column_of_used,
            4 => &mut self.root_of_unused,
            5 => &mut self.used,
            6 => &mut self.unused,
            7 => &mut self.no_block,
            _ => &mut self.no_name,
        }
    }
}

/// Places of names that are looked at, and of all.
const LOOKED_AT: usize = 7;
const PLACES: usize = 9;

/// A table of a column and one with something below it, a table by name, and an entry that no table refers to. The
/// table by name comes first, so that rows of it can be had at once.
fn format(names: &Names) -> Case {
    let mut case = Case { op: op::FORMAT, ..Case::default() };
    let Names { root, column, below, column_of_used, root_of_unused, used, unused, no_block, no_name } =
        names;
    let table = [
        Plan::named(19, 2, root),
        Plan::named(8, 0, column),
        Plan::named(15, 1, b"b"),
        Plan::named(0, 0, below),
    ];
    let of_used = [Plan::new(19, 1), Plan::named(8, 0, column_of_used)];
    let [table, of_used, of_unused, _] =
        [&table[..], &of_used, &[Plan::named(19, 0, root_of_unused)], &[Plan::named(1, 0, no_block)]]
            .map(|plans| lay_out(plans, &mut case.records, &mut case.names));
    let mut entries = [(used, of_used), (unused, of_unused)];
    entries.sort_by_key(|(name, _)| *name);
    for (name, block) in entries {
        let start = put_name(&mut case.names, name);
        case.registry.extend(words([start, name.len() as u32, block.first as u32, block.count as u32]));
    }
    let start = put_name(&mut case.names, used);
    case.references.extend(words([1, start, used.len() as u32, 0]));
    case.references.extend(inline(table));
    case.names.extend_from_slice(no_name);
    case
}

/// The format with this name at that place.
fn with(place: usize, name: &[u8]) -> Case {
    let mut names = Names::usual();
    *names.place(place) = name.to_vec();
    format(&names)
}

/// The block of the first table by its numbers.
fn lone(op: u32, case: Case) -> Case {
    Case { op, a: 0, b: 4, references: Vec::new(), registry: Vec::new(), ..case }
}

/// A table by a name that nobody has, before all others.
fn with_unknown(mut case: Case, name: &[u8]) -> Case {
    let start = put_name(&mut case.names, name);
    case.references.splice(0..0, words([1, start, name.len() as u32, 0]));
    case
}

/// A table of these records more, before all others.
fn with_table(mut case: Case, plans: &[Plan]) -> Case {
    let block = lay_out(plans, &mut case.records, &mut case.names);
    case.references.splice(0..0, inline(block));
    case
}

/// The same as an entry that comes after all others.
fn with_entry(mut case: Case, plans: &[Plan]) -> Case {
    let block = lay_out(plans, &mut case.records, &mut case.names);
    let start = put_name(&mut case.names, "\u{10FFFF}".as_bytes());
    case.registry.extend(words([start, 4, block.first as u32, block.count as u32]));
    case
}

/// What a name that is no text is met beside, and which of the two is told first: forms and depths before it, rules
/// after it.
fn beside(bad: Case) -> Vec<Case> {
    let leaf = Plan::named(13, 0, b"c");
    let mut form = bad.clone();
    form.records[3 * 16] = 20;
    let mut twice = bad.clone();
    twice.registry.extend_from_within(16..);
    vec![
        form,
        twice,
        with_table(bad.clone(), &chain(65, 19, 0)),
        with_entry(bad.clone(), &chain(65, 15, 0)),
        Case { references: Vec::new(), ..bad.clone() },
        with_table(bad.clone(), &fan(4, 1, 0)),
        with_entry(bad.clone(), &fan(13, 2, 0)),
        with_table(bad.clone(), &table_of(&fan(17, 256, 0))),
        with_unknown(bad.clone(), b"unknown"),
        with_table(bad.clone(), &[leaf.clone()]),
        with_table(bad, &[Plan::new(19, 1), Plan::new(13, 0)]),
    ]
}

/// A lone block with such a name, and what it is met beside.
fn lone_blocks(name: &[u8]) -> Vec<Case> {
    let block = |plans: &[Plan]| {
        let mut case = Case::default();
        let Block { first, count } = lay_out(plans, &mut case.records, &mut case.names);
        Case { a: first, b: count, ..case }
    };
    let named = |code: u8, children: u32| Plan::named(code, children, name);
    let mut deep = chain(65, 19, 0);
    deep[1].name = Some(name.to_vec());
    vec![
        block(&[named(20, 0)]),
        block(&deep),
        block(&[named(2, 1), Plan::new(0, 0)]),
        block(&[named(13, 0)]),
        block(&[named(19, 1), Plan::new(13, 0)]),
        block(&[named(19, 1), Plan::named(13, 0, b"")]),
    ]
}

/// Each sort of bad name at each place, with all names of the sort or with one of it.
fn everywhere(names: &[(&str, &[u8])], emit: &mut Emit) {
    for (_, name) in names {
        for place in 0..PLACES {
            emit(NAMES, with(place, name));
            emit(NAMES, lone(op::VALIDATE, with(place, name)));
            emit(NAMES, lone(op::ENCODER, with(place, name)));
        }
        emit(NAMES, with_unknown(format(&Names::usual()), name));
        emit(NAMES, Case { op: op::TABLE_SCHEMA, a: 1, ..with(1, name) });
        emit(NAMES, Case { op: op::TABLE_SCHEMA, a: 9, ..with(5, name) });
        for case in lone_blocks(name) {
            [op::VALIDATE, op::ENCODER].into_iter().for_each(|op| emit(NAMES, Case { op, ..case.clone() }));
        }
        for place in 0..LOOKED_AT {
            beside(with(place, name)).into_iter().for_each(|case| emit(NAMES, case));
        }
    }
}

/// Text of unusual sorts at all places; the names of columns are not empty, and those of entries differ.
fn all_good(name: &[u8]) -> Case {
    let longer = |more: &[u8]| [name, more].concat();
    let column = if name.is_empty() { b"a" } else { name };
    let [root, below, root_of_unused, no_block, no_name] = [name; 5].map(<[u8]>::to_vec);
    format(&Names {
        root,
        column: column.to_vec(),
        below,
        column_of_used: column.to_vec(),
        root_of_unused,
        used: name.to_vec(),
        unused: longer(b"u"),
        no_block,
        no_name,
    })
}

/// The longest store that is gone through byte by byte: more than twice as long as the record table beside it.
const LONGEST_STORE: usize = 72;

/// A table of one column over stores of all lengths, all ASCII but for one byte at each place: it is in the column's
/// name, which is all of the store, is that name by itself, or is none's. A store may be looked at as a whole first,
/// some bytes at a time, and one that is longer than the records otherwise.
fn stores(emit: &mut Emit) {
    for length in 1..=LONGEST_STORE {
        for at in 0..length {
            let mut names = vec![b'a'; length];
            names[at] = BAD_BYTES[(length + at) % BAD_BYTES.len()];
            for (start, bytes) in [(0, length), (at, 1), ((at + 1) % length, 1)] {
                let column = record(8, 1, bytes as u16, start as u32, 0, 0);
                let records = [record(19, 0, 0, 0, 1, 1), column].concat();
                let references = inline(Block { first: 0, count: 2 }).to_vec();
                let case =
                    Case { op: op::FORMAT, records, references, names: names.clone(), ..Case::default() };
                emit(NAMES, case);
            }
        }
    }
}

/// Bytes that are no text by themselves.
const BAD_BYTES: [u8; 5] = [0x80, 0xBF, 0xC3, 0xE2, 0xFF];

/// Every case.
pub fn fixed(emit: &mut Emit) {
    everywhere(&BAD, emit);
    stores(emit);
    for name in GOOD {
        let case = all_good(name.as_bytes());
        emit(NAMES, case.clone());
        [op::VALIDATE, op::ENCODER].into_iter().for_each(|op| emit(NAMES, lone(op, case.clone())));
        emit(NAMES, Case { op: op::TABLE_SCHEMA, a: 1, ..case });
    }
}

/// Of each sort of bad names one, for a sample: overlong, a surrogate, above 10FFFF, cut, a lone continuation.
pub const FEW: [&[u8]; 5] = [b"\xC0\x80", b"\xED\xA0\x80", b"\xF4\x90\x80\x80", b"ab\xE2\x82", b"\x80"];

/// What a sample has to have: three of those at each place that is looked at, in turn, and one at the others; each
/// beside another fault; blocks by themselves; and text with characters of two, three and four bytes, U+0000, U+FEFF,
/// U+FFFF.
pub fn few(emit: &mut Emit) {
    for place in 0..LOOKED_AT {
        for turn in 0..3 {
            emit(NAMES, with(place, FEW[(place + 2 * turn) % FEW.len()]));
        }
    }
    for name in FEW {
        emit(NAMES, with_unknown(format(&Names::usual()), name));
    }
    for place in LOOKED_AT..PLACES {
        emit(NAMES, with(place, FEW[place % FEW.len()]));
    }
    // Nodes with more children than they may have make long cases, of which a sample has enough.
    let short = |case: &Case| case.records.len() < 100 * 16;
    beside(with(4, FEW[0])).into_iter().filter(short).for_each(|case| emit(NAMES, case));
    for (place, name) in [1, 2, 0, 1, 3].into_iter().zip(FEW) {
        emit(NAMES, lone([op::VALIDATE, op::ENCODER][place % 2], with(place, name)));
    }
    for case in lone_blocks(FEW[2]) {
        emit(NAMES, Case { op: op::ENCODER, ..case });
    }
    emit(NAMES, Case { op: op::TABLE_SCHEMA, a: 9, ..with(3, FEW[1]) });
    for name in ["", "é", "名", "\u{1F600}", "\0", "\u{FEFF}n", "\u{FFFF}", "\u{10FFFF}", "seven bé"] {
        emit(NAMES, all_good(name.as_bytes()));
    }
}

/// Rows of the first table, whose schema has one column, under this format: an uint8 each.
fn reading(case: Case, emit: &mut Emit) {
    let settings = super::rows::usual();
    let none = plain::settings::Settings { node_charge: 0, ..settings };
    let case = Case { input: vec![0, 0, 7, 0, 0, 8], ..case };
    for (op, a) in [(op::SKIP, 0), (op::SKIP, 3), (op::SKIP, 6), (op::SKIP, 7), (op::RUN, 0)] {
        emit(NAMES, Case { op, a, ..case.clone() }.with_settings(settings));
    }
    emit(NAMES, Case { op: op::RUN, input: Vec::new(), ..case.clone() }.with_settings(settings));
    emit(NAMES, Case { op: op::RUN, ..case }.with_settings(none));
}

/// The same formats under the calls that read: a row, its end, past it, and settings that are none.
pub fn fixed_rows(emit: &mut Emit) {
    for (_, name) in BAD {
        (0..PLACES).for_each(|place| reading(with(place, name), emit));
        reading(with_unknown(format(&Names::usual()), name), emit);
    }
    GOOD.iter().for_each(|name| reading(all_good(name.as_bytes()), emit));
}

/// Of these what a sample has to have.
pub fn few_rows(emit: &mut Emit) {
    let skip = |case: Case, emit: &mut Emit| {
        reading(case, &mut |kind, case| {
            if case.op == op::RUN || [0, 7].contains(&case.a) {
                emit(kind, case);
            }
        });
    };
    skip(with(3, FEW[1]), emit);
    skip(all_good("é名\u{1F600}".as_bytes()), emit);
}

#[cfg(test)]
mod tests {
    use super::*;
    use crate::judge::plain_answer;
    use std::collections::BTreeMap;

    fn answers(cases: impl Fn(&mut Emit)) -> BTreeMap<u64, u64> {
        let mut answers: BTreeMap<u64, u64> = BTreeMap::new();
        cases(&mut |_, case| *answers.entry(plain_answer(&case).number).or_default() += 1);
        answers
    }

    #[test]
    fn names_are_refused_at_the_places_that_are_looked_at() {
        for (_, name) in BAD {
            for place in 0..PLACES {
                let number = plain_answer(&with(place, name)).number;
                assert_eq!(number, if place < LOOKED_AT { 33 } else { 0 }, "{place} {name:02x?}");
            }
            let numbers: Vec<u64> =
                beside(with(4, name)).iter().map(|case| plain_answer(case).number).collect();
            assert_eq!(numbers, [2, 2, 3, 3, 33, 33, 33, 33, 33, 33, 33], "{name:02x?}");
        }
        let usual = format(&Names::usual());
        assert_eq!(plain_answer(&usual).number, 0);
        let numbers: Vec<u64> = beside(usual).iter().map(|case| plain_answer(case).number).collect();
        assert_eq!(numbers, [2, 2, 3, 3, 6, 4, 4, 5, 7, 8, 10]);
        assert!(GOOD.iter().all(|name| plain_answer(&all_good(name.as_bytes())).number == 0));
    }

    #[test]
    fn all_that_is_said_of_names_is_met() {
        // Without tables their own names are in no block, and not looked at.
        assert_eq!(answers(fixed).keys().copied().collect::<Vec<_>>(), [0, 2, 3, 6, 33]);
        assert_eq!(answers(fixed_rows).keys().copied().collect::<Vec<_>>(), [0, 1, 33]);
        let few = answers(few);
        assert!((30..=60).contains(&few[&33]), "{few:?}");
    }
}
