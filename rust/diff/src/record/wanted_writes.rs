//! What a recording of the writing calls has to have.

use std::collections::BTreeSet;

use plain::answer::number::{
    BLOB_TOO_LARGE, INVALID_VARIANT_TAG, NO_OUTPUT_ROOM, SETTING, TUPLE_LENGTH, VALUE_DOES_NOT_MATCH_SCHEMA,
};
use plain::settings::{MOST, MOST_NODE_CHARGE};
use plain::tables::schema_record;
use plain::value_table::{value_records, ValueRecord};
use plain::wire_type::{REPEATED_VARIANT8, VARIANT8};

use super::wanted::{plainly, Answered, Shown};
use crate::case::{op, Answer, Case};

/// Where a case has no column, or several.
pub const NO_COLUMN: u64 = 255;

/// The wire type of the only column.
pub fn column(case: &Case) -> u64 {
    let first = u64::from(case.a as u32);
    if schema_record(&case.records, first).child_count != 1 {
        return NO_COLUMN;
    }
    u64::from(schema_record(&case.records, first + 1).code)
}

/// Every number; every wire type written and met by a value of another kind; every variant with a tag past
/// its children; both blobs past the limit.
pub fn answers() -> BTreeSet<Answered> {
    let mut answers =
        plainly(&[(op::ENCODE, &[1, 2, 3, 33, 4, 5, 9, 10, 16, 18, 21]), (op::CHECK_TABLE, &[0, 18])]);
    answers.extend((0..20).map(|code| (op::ENCODE, 0, code)));
    answers.extend((0..20).map(|code| (op::ENCODE, VALUE_DOES_NOT_MATCH_SCHEMA, code)));
    answers.extend((15..19).map(|code| (op::ENCODE, INVALID_VARIANT_TAG, code)));
    answers.extend([13, 14].map(|code| (op::ENCODE, BLOB_TOO_LARGE, code)));
    answers
}

fn values(case: &Case) -> Vec<ValueRecord> {
    value_records(&case.references)
}

fn writes(answer: &Answer, test: impl Fn(&ValueRecord) -> bool, case: &Case) -> bool {
    answer.number == 0 && values(case).iter().any(test)
}

fn is_double(value: &ValueRecord, test: fn(f64, u64) -> bool) -> bool {
    value.kind == 12 && test(f64::from_bits(value.start()), value.start())
}

/// Bit 51 tells a quiet NaN from a signalling one.
const QUIET: u64 = 1 << 51;

pub fn shown() -> Vec<Shown> {
    let mut all: Vec<Shown> = Vec::new();
    let mut show = |words: String, test: Box<dyn Fn(&Case, &Answer) -> bool>| {
        let shown = move |case: &Case, answer: &Answer| case.op == op::ENCODE && test(case, answer);
        all.push((words, Box::new(shown)));
    };
    kinds_and_counts(&mut show);
    tags(&mut show);
    blobs_and_doubles(&mut show);
    room(&mut show);
    settings(&mut show);
    all
}

type Show<'a> = dyn FnMut(String, Box<dyn Fn(&Case, &Answer) -> bool>) + 'a;

fn kinds_and_counts(show: &mut Show) {
    for kind in 0..18 {
        show(
            format!("a value of kind {kind} where another is wanted"),
            Box::new(move |_, answer| {
                answer.number == VALUE_DOES_NOT_MATCH_SCHEMA && answer.values[1] == kind
            }),
        );
    }
    let counted = |test: fn(u64, &[u64; 3]) -> bool| -> Box<dyn Fn(&Case, &Answer) -> bool> {
        Box::new(move |_, answer| answer.number == TUPLE_LENGTH && test(answer.place, &answer.values))
    };
    show(
        "a root with too few values".to_owned(),
        counted(|place, values| place == 0 && values[1] < values[0]),
    );
    show("a root with too many".to_owned(), counted(|place, values| place == 0 && values[1] > values[0]));
    show(
        "a tuple below with too few".to_owned(),
        counted(|place, values| place > 0 && values[1] < values[0]),
    );
    show(
        "a tuple below with too many".to_owned(),
        counted(|place, values| place > 0 && values[1] > values[0]),
    );
}

/// The only column's child count, and the tag of the first value below it.
fn choice(case: &Case) -> Option<(u64, u64)> {
    let record = schema_record(&case.records, u64::from(case.a as u32) + 1);
    values(case).get(2).map(|value| (record.child_count, value.tag))
}

fn tags(show: &mut Show) {
    let past = |code: u64, tag: u64, children: u64| -> Box<dyn Fn(&Case, &Answer) -> bool> {
        Box::new(move |_, answer| {
            answer.number == INVALID_VARIANT_TAG && answer.values == [code, tag, children]
        })
    };
    for code in 15..19 {
        show(
            format!("the last tag of type {code}"),
            Box::new(move |case, answer| {
                let is_last = |(children, tag): (u64, u64)| children > 1 && tag + 1 == children;
                answer.number == 0 && column(case) == code && choice(case).is_some_and(is_last)
            }),
        );
        show(format!("the tag past two children of type {code}"), past(code, 2, 2));
        show(format!("a tag of two bytes whose first is right, of type {code}"), past(code, 256, 2));
    }
    for (code, most) in [(VARIANT8, 256), (REPEATED_VARIANT8, 255)] {
        let code = u64::from(code);
        show(
            format!("the last tag that one byte has for type {code}"),
            Box::new(move |case, answer| {
                answer.number == 0 && column(case) == code && choice(case) == Some((most, most - 1))
            }),
        );
        show(format!("the tag past it of type {code}"), past(code, most, most));
    }
}

fn blobs_and_doubles(show: &mut Show) {
    for code in [13, 14] {
        show(
            format!("a blob of type {code} at the limit"),
            Box::new(move |case, answer| {
                let limit = case.settings().blob_limit(code);
                let is_at = |value: &ValueRecord| value.kind == code && value.size == limit;
                limit > 0 && writes(answer, is_at, case)
            }),
        );
        show(
            format!("an empty blob of type {code} where the limit is 0"),
            Box::new(move |case, answer| {
                let limit = case.settings().blob_limit(code);
                limit == 0 && writes(answer, |value| value.kind == code, case)
            }),
        );
        show(
            format!("a blob of type {code} one past the limit"),
            Box::new(move |_, answer| {
                let [of, size, limit] = answer.values;
                answer.number == BLOB_TOO_LARGE && of == u64::from(code) && size == limit + 1
            }),
        );
    }
    let doubles: [(&str, fn(f64, u64) -> bool); 3] = [
        ("a quiet NaN", |value, bits| value.is_nan() && bits & QUIET > 0),
        ("a signalling NaN", |value, bits| value.is_nan() && bits & QUIET == 0),
        ("minus zero", |value, _| value == 0.0 && value.is_sign_negative()),
    ];
    for (words, test) in doubles {
        show(
            words.to_owned(),
            Box::new(move |case, answer| writes(answer, |value| is_double(value, test), case)),
        );
    }
}

/// Where the row stands: position, bytes that it needs, and bytes of the output.
type Place = fn(u64, u64, u64) -> bool;

fn room(show: &mut Show) {
    let placed = |number: u64, test: Place| -> Box<dyn Fn(&Case, &Answer) -> bool> {
        Box::new(move |case, answer| {
            answer.number == number && test(case.b, answer.values[0], case.input.len() as u64)
        })
    };
    let places: [(&str, u64, Place); 7] = [
        ("a row at the start", 0, |at, _, _| at == 0),
        ("a row in the middle of its output", 0, |at, need, room| at > 0 && at + need < room),
        ("room at equality", 0, |at, need, room| at > 0 && at + need == room),
        ("a byte less room", NO_OUTPUT_ROOM, |at, need, room| at > 0 && at + need == room + 1),
        ("a position at the end", NO_OUTPUT_ROOM, |at, _, room| at == room),
        ("a position past it", SETTING, |at, _, room| at == room + 1),
        ("a position past 32 bits", SETTING, |at, _, _| at > MOST),
    ];
    for (words, number, test) in places {
        show(words.to_owned(), placed(number, test));
    }
    for number in [1, 2, 3, 33, 4, 5, 9, 10, 14, 15, 16, 17, 18, 21] {
        show(
            format!("refusal {number}, and an output that stays"),
            Box::new(move |case, answer| {
                answer.number == number
                    && !case.input.is_empty()
                    && answer.output.as_ref() == Some(&case.input)
            }),
        );
    }
}

fn settings(show: &mut Show) {
    let tests: [(&str, u64, fn(&Case) -> bool); 10] = [
        ("a node charge of 0", SETTING, |case| case.node_charge == 0),
        ("the largest node charge", 0, |case| case.node_charge == MOST_NODE_CHARGE),
        ("a larger one", SETTING, |case| case.node_charge == MOST_NODE_CHARGE + 1),
        ("the largest limit of a string32", 0, |case| case.max_string32_bytes == MOST),
        ("a larger one", SETTING, |case| case.max_string32_bytes == MOST + 1),
        ("the largest limit of a yson32", 0, |case| case.max_yson32_bytes == MOST),
        ("a larger one", SETTING, |case| case.max_yson32_bytes == MOST + 1),
        ("a row limit of 0, which does not count here", 0, |case| case.max_row_bytes == 0),
        ("the largest row limit", 0, |case| case.max_row_bytes == MOST),
        ("a larger one", SETTING, |case| case.max_row_bytes == MOST + 1),
    ];
    for (words, number, test) in tests {
        show(words.to_owned(), Box::new(move |case, answer| answer.number == number && test(case)));
    }
}
