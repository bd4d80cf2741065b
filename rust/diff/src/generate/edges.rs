//! Both sides of every bound: depths, child counts, record counts, table counts, and numbers that
//! would come out right if a sum were cut to 32 bits.

use super::Emit;
use crate::case::{op, Case};
use crate::plan::{chain, fan, inline, lay_out, put_name, record, table_of, words, Plan};
use plain::tables::Block;

/// The block as each call gets it: by its numbers, inline, and by name from a registry.
fn in_every_call(kind: super::Kind, before: usize, plans: &[Plan], emit: &mut Emit) {
    for op in [op::VALIDATE, op::ENCODER, op::FORMAT, op::TABLE_SCHEMA] {
        emit(kind, in_call(op, before, plans));
    }
    emit(kind, registered(before, plans, true));
    emit(kind, registered(before, plans, false));
}

/// `before` records stand before the block, so that places have something to count.
fn in_call(op: u32, before: usize, plans: &[Plan]) -> Case {
    let mut case = Case { op, records: record(0, 0, 0, 0, 0, 0).repeat(before), ..Case::default() };
    let block = lay_out(plans, &mut case.records, &mut case.names);
    if op == op::VALIDATE || op == op::ENCODER {
        (case.a, case.b) = (block.first, block.count);
    } else {
        case.references.extend(inline(block));
    }
    case
}

fn registered(before: usize, plans: &[Plan], used: bool) -> Case {
    let mut case = Case { records: record(19, 0, 0, 0, 0, 0).repeat(before.max(1)), ..Case::default() };
    let block = lay_out(plans, &mut case.records, &mut case.names);
    let start = put_name(&mut case.names, b"entry");
    case.registry.extend(words([start, 5, block.first as u32, block.count as u32]));
    case.references.extend(inline(Block { first: 0, count: 1 }));
    if used {
        case.references.extend(words([1, start, 5, 0]));
    }
    Case { op: op::FORMAT, ..case }
}

fn depths(emit: &mut Emit) {
    for levels in [1, 2, 3, 62, 63, 64, 65, 66, 127, 128, 129, 255, 256, 257, 1000] {
        for code in [15, 16, 17, 18, 19, 2] {
            in_every_call("depth edge", levels % 5, &chain(levels, code, 13), emit);
            in_every_call("depth edge", levels % 3, &table_of(&chain(levels, code, 19)), emit);
        }
        // A leaf with a child far down: depth is judged before it.
        let mut faulty = chain(levels, 19, 13);
        let middle = levels / 2;
        faulty[middle].code = 7;
        in_every_call("depth edge", 1, &faulty, emit);
        // A ladder, each rung with a leaf beside it.
        let mut ladder = vec![Plan::new(19, 2)];
        for _ in 2..levels {
            ladder.extend([Plan::new(19, 2), Plan::new(1, 0)]);
        }
        ladder.extend([Plan::new(1, 0), Plan::new(1, 0)]);
        in_every_call("depth edge", 2, &ladder, emit);
    }
    in_every_call("depth edge", 0, &chain(131_072, 19, 0), emit);
}

fn narrow_child_counts(emit: &mut Emit) {
    for code in [15, 17] {
        for count in 253..=258 {
            in_every_call("child count edge", 3, &fan(code, count, 1), emit);
            in_every_call("child count edge", 3, &table_of(&fan(code, count, 15)), emit);
        }
    }
    for code in 0..20 {
        for count in [1, 2, 254, 255, 256, 257, 300] {
            emit("child count edge", in_call(op::VALIDATE, 1, &fan(code, count, 0)));
            emit("child count edge", in_call(op::FORMAT, 1, &fan(code, count, 0)));
        }
    }
}

fn wide_child_counts(emit: &mut Emit) {
    for code in [16, 18] {
        for count in [65_534, 65_535, 65_536, 65_537] {
            emit("child count edge", in_call(op::VALIDATE, 0, &fan(code, count, 1)));
            emit("child count edge", in_call(op::ENCODER, 2, &table_of(&fan(code, count, 1))));
            emit("child count edge", in_call(op::FORMAT, 1, &table_of(&fan(code, count, 1))));
            emit("child count edge", registered(0, &fan(code, count, 1), false));
        }
    }
    for code in [13, 15, 17, 19] {
        emit("child count edge", in_call(op::VALIDATE, 0, &fan(code, 65_536, 1)));
    }
    // A wide table whose last column alone has no name, or an empty one.
    for name in [None, Some(Vec::new()), Some(b"last".to_vec())] {
        let mut wide = fan(19, 70_000, 5);
        wide[1..].iter_mut().for_each(|column| column.name = Some(b"c".to_vec()));
        wide[70_000].name = name;
        emit("child count edge", in_call(op::ENCODER, 3, &wide));
        emit("child count edge", in_call(op::FORMAT, 3, &wide));
    }
}

fn record_counts(emit: &mut Emit) {
    for count in [131_070, 131_071, 131_072] {
        let plans = fan(19, count, 0);
        emit("record count edge", in_call(op::VALIDATE, 0, &plans));
        emit("record count edge", in_call(op::VALIDATE, 1, &plans));
        emit("record count edge", in_call(op::ENCODER, 0, &plans));
        emit("record count edge", in_call(op::FORMAT, 0, &plans));
        emit("record count edge", registered(0, &plans, false));
    }
    // As many records as a case can hold: two largest blocks, and blocks that are not quite that.
    let mut full = in_call(op::VALIDATE, 131_072, &fan(19, 131_071, 0));
    emit("record count edge", full.clone());
    full.b = 131_073;
    emit("record count edge", full.clone());
    full.a = 131_071;
    emit("record count edge", full.clone());
    (full.a, full.b) = (0, 262_144);
    emit("record count edge", full);
}

fn table_counts(emit: &mut Emit) {
    let good = in_call(op::FORMAT, 0, &[Plan::new(19, 0)]);
    for tables in [255, 256, 257, 65_535, 65_536, 65_537] {
        let mut case = Case { references: good.references.repeat(tables), ..good.clone() };
        emit("table count edge", case.clone());
        for table in [tables - 1, tables, tables + 65_536] {
            emit("table count edge", Case { op: op::TABLE_SCHEMA, a: table as u64, ..case.clone() });
        }
        // The last one names what is not in the registry.
        case.references.extend(words([1, 0, 0, 0]));
        emit("table count edge", case);
    }
    for entries in [255_u16, 256, 257, 2000] {
        let mut case = good.clone();
        for number in 0..entries {
            // In order, and text: two digits of seven bits.
            case.names.extend([(number >> 7) as u8, (number % 128) as u8]);
            case.registry.extend(words([2 * u32::from(number), 2, 0, 1]));
        }
        for number in [0, entries / 2, entries - 1] {
            case.references.extend(words([1, 2 * u32::from(number), 2, 0]));
        }
        emit("table count edge", case.clone());
        emit("table count edge", Case { op: op::TABLE_SCHEMA, a: 3, ..case.clone() });
        case.registry.swap(16, 32);
        emit("table count edge", case);
    }
}

/// Sums that pass 32 bits and would look right without their upper half.
fn cut_sums(emit: &mut Emit) {
    let max = u32::MAX;
    let tables: [&[(u32, u32)]; 7] = [
        &[(1, max), (0, 2)],
        &[(1, max), (0, 2), (2, 1)],
        &[(1, 1 << 31), ((1 << 31) + 1, 1 << 31), (1, 1)],
        &[(1, 1), (2, max), (1, 1)],
        &[(1, 2), (3, max), (2, 1)],
        &[(1, max)],
        &[(1, 1), (2, max), (1, 2), (3, 1)],
    ];
    for table in tables {
        for count in 1..=table.len() as u64 + 1 {
            let fields = table.iter().map(|(first, count)| record(19, 0, 0, 0, *first, *count));
            let records: Vec<u8> = fields.collect::<Vec<_>>().concat();
            emit("sum past 32 bits", Case { op: op::VALIDATE, b: count, records, ..Case::default() });
        }
    }
    let good = in_call(op::FORMAT, 0, &[Plan::named(19, 0, b"abc")]);
    for start in [0, 1, 3, 4, max - 2, max - 1, max] {
        for length in [0, 1, 2, 3, 4, max - 2, max - 1, max] {
            let span = Case { references: words([1, start, length, 0]).to_vec(), ..good.clone() };
            emit("sum past 32 bits", span);
            let entry = Case { registry: words([start, length, 0, 1]).to_vec(), ..good.clone() };
            emit("sum past 32 bits", entry);
            let block = Case { references: words([0, start, length, 0]).to_vec(), ..good.clone() };
            emit("sum past 32 bits", block);
            let block = Case { registry: words([0, 1, start, length]).to_vec(), ..good.clone() };
            emit("sum past 32 bits", block);
            let records = record(19, 1, length as u16, start, 0, 0).to_vec();
            emit("sum past 32 bits", Case { records, ..good.clone() });
        }
    }
}

fn long_names(emit: &mut Emit) {
    for length in [65_534, 65_535] {
        let mut plans = table_of(&[Plan::new(1, 0)]);
        plans[1].name = Some(vec![b'x'; length]);
        in_every_call("long name", 1, &plans, emit);
    }
    // Two registry names of 70,000 bytes that differ at their ends only, and a prefix of them.
    let good = in_call(op::FORMAT, 0, &[Plan::new(19, 0)]);
    for (last, length) in [(b'w', 70_000), (b'x', 70_000), (b'y', 70_000), (b'x', 69_999)] {
        let mut names = vec![b'x'; 140_000];
        names[69_999 + length] = last;
        let registry = [words([0, 70_000, 0, 1]), words([70_000, length as u32, 0, 1])].concat();
        let references = [words([1, 0, 70_000, 0]), words([1, 70_000, length as u32, 0])].concat();
        emit("long name", Case { names, registry, references, ..good.clone() });
    }
}

pub fn fixed(emit: &mut Emit) {
    depths(emit);
    narrow_child_counts(emit);
    wide_child_counts(emit);
    record_counts(emit);
    table_counts(emit);
    cut_sums(emit);
    long_names(emit);
}

/// The bounds again in a few cases small enough to be kept in a file: both sides by one call, of the repeated ones in
/// the rows' sample, and what every call refuses.
pub fn few(emit: &mut Emit) {
    for (code, count) in [(15, 256), (15, 257)] {
        emit("child count edge", in_call(op::VALIDATE, 3, &table_of(&fan(code, count, 2))));
    }
    for op in [op::VALIDATE, op::ENCODER, op::FORMAT, op::TABLE_SCHEMA] {
        emit("depth edge", in_call(op, 2, &table_of(&chain(63, 18, 1))));
        emit("depth edge", in_call(op, 1, &chain(65, 19, 19)));
        emit("child count edge", in_call(op, 3, &table_of(&fan(17, 256, 2))));
    }
    emit("depth edge", registered(1, &chain(65, 15, 0), false));
}
