//! A TEST DOUBLE, not the library: it speaks the protocol with the plain reading's answers, and with
//! a planted fault where STAND_IN_FAULT names one. The harness's own tests run against it, to show
//! that a wrong program is found out and its fault made small.

use std::io::{self, Read, Write};

use diff::case::{op, Answer, Case};
use diff::judge::{checked, lone_block, plain_answer, tables};
use plain::forms::{block_lies_in, block_records, is_whole, record_is_formed};
use plain::tables::{entries, schema_record};
use plain::{depth, format, rules};

fn main() -> io::Result<()> {
    let fault = std::env::var("STAND_IN_FAULT").unwrap_or_default();
    let mut input = Vec::new();
    io::stdin().read_to_end(&mut input)?;
    let mut rest = input.as_slice();
    let mut asked = 0;
    let mut output = io::BufWriter::new(io::stdout().lock());
    while let Some((case, after)) = Case::read_from(rest) {
        rest = after;
        if fault == "dies_without_tables" && case.op == op::FORMAT && case.references.is_empty() {
            break;
        }
        asked += 1;
        let mut answer = answer(&fault, case);
        if fault == "keeps_something" && asked > 5_000 && answer.number == 4 {
            answer.place += 1;
        }
        writeln!(output, "{answer}")?;
    }
    output.flush()
}

fn answer(fault: &str, mut case: Case) -> Answer {
    match fault {
        "" | "dies_without_tables" | "keeps_something" => plain_answer(&case),
        "repeated_variant8_takes_256" => {
            let wide = |record: &&mut [u8]| record[0] == 17 && record[12..16] == [0, 1, 0, 0];
            case.records.chunks_exact_mut(16).filter(wide).for_each(|record| record[0] = 15);
            plain_answer(&case)
        }
        "variant16_takes_65537" => {
            let wide = |record: &&mut [u8]| record[0] == 16 && record[12..16] == [1, 0, 1, 0];
            case.records.chunks_exact_mut(16).filter(wide).for_each(|record| record[0] = 19);
            plain_answer(&case)
        }
        "equal_registry_names" => {
            case.registry = without_equal_names(&case);
            plain_answer(&case)
        }
        "place_counts_in_the_block" => {
            let mut answer = plain_answer(&case);
            if case.op < op::FORMAT {
                answer.place = answer.place.saturating_sub(case.a);
            }
            answer
        }
        "depth_65" => depth_65(&case),
        "numbers_cut_to_32_bits" => {
            (case.a, case.b) = (u64::from(case.a as u32), u64::from(case.b as u32));
            plain_answer(&case)
        }
        "empty_name_past_the_store" => {
            let empty = |record: &&mut [u8]| record[1] == 1 && record[2..4] == [0, 0];
            case.records.chunks_exact_mut(16).filter(empty).for_each(|record| record[4..8].fill(0));
            plain_answer(&case)
        }
        "names_come_after_the_rules" => names_after_rules(&case),
        "own_index_not_tested" => own_index_not_tested(&case),
        "later_sibling_first" => later_sibling_first(&case),
        "unused_entry_not_checked" => {
            if is_whole(&case.registry) && case.references.chunks(16).all(|reference| reference[0] == 0) {
                case.registry.clear();
            }
            plain_answer(&case)
        }
        other => panic!("no such fault: {other}"),
    }
}

fn without_equal_names(case: &Case) -> Vec<u8> {
    let mut last = None;
    let mut kept = Vec::new();
    for (entry, bytes) in entries(&case.registry).iter().zip(case.registry.chunks(16)) {
        let name = case.names.get(entry.name.start as usize..(entry.name.start + entry.name.length) as usize);
        if name.is_none() || name != last {
            kept.extend_from_slice(bytes);
        }
        last = name;
    }
    kept.extend_from_slice(&case.registry[case.registry.len() / 16 * 16..]);
    kept
}

/// Goes on to the rules where nothing is deeper than 65.
fn depth_65(case: &Case) -> Answer {
    let answer = plain_answer(case);
    let deep = |block| depth::depth(&case.records, block) > 65;
    if answer.number != 3 {
        answer
    } else if case.op < op::FORMAT {
        let block = lone_block(case);
        if deep(block) {
            answer
        } else {
            checked(rules::schema(&case.records, block))
        }
    } else if format::blocks(&tables(case)).into_iter().any(deep) {
        answer
    } else {
        checked(format::format_rules(&tables(case)))
    }
}

/// A rule that is broken, too, is told before names.
fn names_after_rules(case: &Case) -> Answer {
    let answer = plain_answer(case);
    let rules = match case.op {
        _ if answer.number != 33 => return answer,
        op::VALIDATE => rules::schema(&case.records, lone_block(case)),
        op::ENCODER => format::encoder_rules(&case.records, lone_block(case)),
        _ => format::format_rules(&tables(case)),
    };
    rules.map_or_else(|refusal| checked(Err(refusal)), |()| answer)
}

/// Accepts a block whose only fault is a first child that does not stand after its parent.
fn own_index_not_tested(case: &Case) -> Answer {
    let answer = plain_answer(case);
    let block = lone_block(case);
    if case.op != op::VALIDATE || answer.number != 2 || !block_lies_in(&case.records, block) {
        return answer;
    }
    if !is_whole(&case.records) {
        return answer;
    }
    let mut next = 1;
    for record in block_records(&case.records, block) {
        if !record_is_formed(&case.names, &record) {
            return answer;
        }
        if record.first_child != if record.child_count == 0 { 0 } else { next } {
            return answer;
        }
        next += record.child_count;
    }
    if next == block.count {
        Answer::accepted([0; 3])
    } else {
        answer
    }
}

/// Finds a fault level by level: the lowest record number, where the rule goes down first.
fn later_sibling_first(case: &Case) -> Answer {
    let answer = plain_answer(case);
    if case.op != op::VALIDATE || answer.number != 4 {
        return answer;
    }
    let wrong = |index: &u64| {
        let record = schema_record(&case.records, *index);
        record.code <= 14 && record.child_count > 0
    };
    let place = (case.a..case.a + case.b).find(wrong).expect("there is one");
    let record = schema_record(&case.records, place);
    let values = [u64::from(record.code), record.child_count, 0];
    Answer { number: 4, place, values, ..Answer::default() }
}
