//! All small schemas: every shape, over every type where that is feasible; and all small record
//! tables, whether they are schemas or not.

use super::Emit;
use crate::case::{op, Case};
use crate::plan::{inline, lay_out, record, Plan};
use plain::tables::Block;

const ALL: [u8; 20] = [0, 1, 2, 3, 4, 5, 6, 7, 8, 9, 10, 11, 12, 13, 14, 15, 16, 17, 18, 19];

/// Child counts in level order of every tree with `nodes` nodes.
fn shapes(nodes: usize) -> Vec<Vec<u32>> {
    let mut done = Vec::new();
    grow(nodes, &mut Vec::new(), &mut done);
    done
}

fn grow(nodes: usize, counts: &mut Vec<u32>, done: &mut Vec<Vec<u32>>) {
    let met: u32 = 1 + counts.iter().sum::<u32>();
    if counts.len() == nodes {
        done.push(counts.clone());
        return;
    }
    // The next node must have been met, and the last one has no children left to promise.
    if met as usize <= counts.len() {
        return;
    }
    for count in 0..=(nodes as u32 - met) {
        if counts.len() + 1 == nodes && met + count != nodes as u32 {
            continue;
        }
        counts.push(count);
        grow(nodes, counts, done);
        counts.pop();
    }
}

/// Every way to fill `length` places from `choices`.
pub fn each_choice<T: Copy>(choices: &[T], length: usize, visit: &mut dyn FnMut(&[T])) {
    let mut digits = vec![0; length];
    let mut row: Vec<T> = vec![choices[0]; length];
    loop {
        for (place, digit) in row.iter_mut().zip(&digits) {
            *place = choices[*digit];
        }
        visit(&row);
        let Some(at) = digits.iter().rposition(|digit| digit + 1 < choices.len()) else {
            return;
        };
        digits[at] += 1;
        digits[at + 1..].fill(0);
    }
}

fn case(op: u32, plans: &[Plan]) -> Case {
    let mut case = Case { op, ..Case::default() };
    let block = lay_out(plans, &mut case.records, &mut case.names);
    if op == op::FORMAT {
        case.references.extend(inline(block));
    } else {
        (case.a, case.b) = (block.first, block.count);
    }
    case
}

fn typed(nodes: usize, types: &[u8], ops: &[u32], emit: &mut Emit) {
    for shape in shapes(nodes) {
        each_choice(types, nodes, &mut |codes| {
            let plans: Vec<Plan> =
                shape.iter().zip(codes).map(|(count, code)| Plan::named(*code, *count, b"n")).collect();
            for op in ops {
                emit("exhaustive types", case(*op, &plans));
            }
        });
    }
}

fn named(nodes: usize, types: &[u8], ops: &[u32], emit: &mut Emit) {
    let names: [Option<&[u8]>; 3] = [None, Some(b""), Some(b"n")];
    let mut choices = Vec::new();
    for code in types {
        choices.extend(names.iter().map(|name| (*code, *name)));
    }
    for shape in shapes(nodes) {
        each_choice(&choices, nodes, &mut |row| {
            let plan = |(count, (code, name)): (&u32, &(u8, Option<&[u8]>))| Plan {
                code: *code,
                children: *count,
                name: name.map(<[u8]>::to_vec),
            };
            let plans: Vec<Plan> = shape.iter().zip(row).map(plan).collect();
            for op in ops {
                emit("exhaustive names", case(*op, &plans));
            }
        });
    }
}

/// Every filling of the child fields of a few records: mostly no level order.
fn child_fields(records: usize, firsts: u32, counts: u32, emit: &mut Emit) {
    let mut choices = Vec::new();
    for first in 0..firsts {
        choices.extend((0..counts).map(|count| (first, count)));
    }
    each_choice(&choices, records, &mut |row| {
        let mut table = Vec::new();
        for (first, count) in row {
            table.extend(record(19, 0, 0, 0, *first, *count));
        }
        emit("exhaustive child fields", block_case(table, records as u64));
    });
}

fn block_case(records: Vec<u8>, count: u64) -> Case {
    let names = b"ab".to_vec();
    Case { op: op::VALIDATE, b: count, records, names, ..Case::default() }
}

/// Every filling of one record from the values around its edges.
fn record_fields(emit: &mut Emit) {
    for code in [0, 14, 15, 19, 20, 255] {
        for flag in [0, 1, 2, 255] {
            for length in [0, 1, 2, 3, 256] {
                for start in [0, 1, 2, 3, 0x100, u32::MAX] {
                    for (first, count) in [(0, 0), (1, 0), (0, 1), (1, 1), (0, u32::MAX)] {
                        let table = record(code, flag, length, start, first, count).to_vec();
                        emit("exhaustive record fields", block_case(table, 1));
                    }
                }
            }
        }
    }
}

/// Every small block of a table of leaves: only those of one record are blocks.
fn block_bounds(emit: &mut Emit) {
    for has in 0..4 {
        for first in 0..6 {
            for count in 0..6 {
                for op in [op::VALIDATE, op::ENCODER] {
                    let records = record(19, 0, 0, 0, 0, 0).repeat(has);
                    emit("exhaustive bounds", Case { op, a: first, b: count, records, ..Case::default() });
                }
                let records = record(19, 0, 0, 0, 0, 0).repeat(has);
                let references = inline(Block { first, count }).to_vec();
                emit("exhaustive bounds", Case { op: op::FORMAT, records, references, ..Case::default() });
            }
        }
    }
}

pub fn fixed(emit: &mut Emit) {
    for nodes in 1..=3 {
        typed(nodes, &ALL, &[op::VALIDATE, op::ENCODER, op::FORMAT], emit);
        named(nodes, &[0, 13, 15, 19], &[op::ENCODER, op::FORMAT], emit);
    }
    typed(4, &[0, 2, 14, 15, 16, 17, 18, 19], &[op::VALIDATE, op::ENCODER], emit);
    typed(5, &[1, 15, 18, 19], &[op::ENCODER], emit);
    typed(6, &[1, 19], &[op::VALIDATE, op::FORMAT], emit);
    named(4, &[13, 19], &[op::ENCODER], emit);
    record_fields(emit);
    block_bounds(emit);
    child_fields(1, 4, 4, emit);
    child_fields(2, 4, 4, emit);
    child_fields(3, 5, 4, emit);
    child_fields(4, 4, 3, emit);
}

/// All schemas of four nodes over all twenty types: 800,000 of them.
pub fn four_nodes(emit: &mut Emit) {
    typed(4, &ALL, &[op::ENCODER], emit);
}

#[cfg(test)]
mod tests {
    use super::*;

    #[test]
    fn shapes_are_counted_by_catalan_numbers() {
        let counts: Vec<usize> = (1..=6).map(|nodes| shapes(nodes).len()).collect();
        assert_eq!(counts, [1, 1, 2, 5, 14, 42]);
    }

    #[test]
    fn choices_are_all_visited_once() {
        let mut seen = Vec::new();
        each_choice(&[0, 1, 2], 2, &mut |row| seen.push(row.to_vec()));
        assert_eq!(seen.len(), 9);
        seen.dedup();
        assert_eq!(seen.len(), 9);
    }
}
