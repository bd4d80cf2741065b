//! What a recording of the index calls has to have.

use std::collections::BTreeSet;

use plain::answer::number::{
    INDEX_MISMATCH, NO_INDEX_ROOM, NO_NODE_ROOM, NO_PAYLOAD_ROOM, NO_SUCH_ROW, SETTING, TRUNCATED,
};
use plain::indexing::{accepted, index_record};
use plain::settings::MOST;

use super::wanted::{plainly as numbers, Answered, Shown};
use crate::case::{op, Answer, Case};
use crate::indexing::{plainly, IndexCase};

pub const OPERATIONS: [u32; 4] = [op::BUILD_INDEX, op::CHECK_INDEX, op::EXTEND_INDEX, op::DECODE_INDEXED];

/// Whether the offset of row n's record lies in the stream, so that another row is there.
pub fn mismatch(case: &Case) -> u64 {
    u64::from(IndexCase::of(case).offset().is_some())
}

/// Every number that a format or a row has, in every call, and its own.
pub fn answers() -> BTreeSet<Answered> {
    let of_streams = [0, 1, 2, 3, 33, 4, 5, 6, 7, 8, 10, 11, 13, 14, 17];
    let mut answers = numbers(&OPERATIONS.map(|op| (op, &of_streams[..])));
    answers.extend(numbers(&[
        (op::BUILD_INDEX, &[NO_INDEX_ROOM]),
        (op::CHECK_INDEX, &[INDEX_MISMATCH]),
        (op::EXTEND_INDEX, &[NO_INDEX_ROOM, INDEX_MISMATCH]),
        (op::DECODE_INDEXED, &[NO_NODE_ROOM, NO_PAYLOAD_ROOM, NO_SUCH_ROW, INDEX_MISMATCH]),
    ]));
    answers.insert((op::DECODE_INDEXED, INDEX_MISMATCH, 1));
    // Of what a stream may be cut in the most usual: a byte, a blob's length and payload, tags.
    answers.extend(
        OPERATIONS.into_iter().flat_map(|op| [8, 13, 14, 15, 17].map(|context| (op, TRUNCATED, context))),
    );
    answers
}

/// A call, with how many rows its stream has and what it is answered.
struct Seen<'a> {
    case: IndexCase,
    rows: u64,
    answer: &'a Answer,
}

impl Seen<'_> {
    fn records(&self) -> u64 {
        self.case.index.len() as u64 / 16
    }

    fn is(&self, op: u32, number: u64) -> bool {
        self.case.asked().op == op && self.answer.number == number
    }

    /// The bytes of the slice that is lent stay as they were.
    fn stays(&self) -> bool {
        !self.case.index.is_empty() && self.answer.output.as_ref() == Some(&self.case.index)
    }

    /// What row n's record says; nothing is there for one that is not.
    fn offset(&self) -> Option<u64> {
        let is_mismatch = self.is(op::DECODE_INDEXED, INDEX_MISMATCH);
        is_mismatch.then(|| index_record(&self.case.index, self.case.number).offset)
    }
}

type Test = fn(&Seen) -> bool;

const BUILT: [(&str, Test); 4] = [
    ("an index that just fits", |seen| {
        seen.is(op::BUILD_INDEX, 0) && seen.rows > 1 && seen.case.index.len() as u64 == 16 * seen.rows
    }),
    ("an index with room behind it", |seen| seen.is(op::BUILD_INDEX, 0) && seen.records() > seen.rows),
    ("a byte less than the index needs", |seen| {
        seen.is(op::BUILD_INDEX, NO_INDEX_ROOM)
            && seen.case.index.len() as u64 + 1 == 16 * seen.rows
            && seen.stays()
    }),
    ("a run that is refused after some rows, and an index that stays", |seen| {
        (11..=17).contains(&seen.answer.number)
            && seen.is(op::BUILD_INDEX, seen.answer.number)
            && seen.rows > 0
            && seen.stays()
    }),
];

const CHECKED: [(&str, Test); 4] = [
    ("a whole index", |seen| seen.is(op::CHECK_INDEX, 0) && seen.rows > 1),
    ("a ragged tail", |seen| seen.is(op::CHECK_INDEX, INDEX_MISMATCH) && seen.case.index.len() % 16 > 0),
    ("a record fewer", |seen| seen.is(op::CHECK_INDEX, INDEX_MISMATCH) && seen.records() + 1 == seen.rows),
    ("a record more", |seen| seen.is(op::CHECK_INDEX, INDEX_MISMATCH) && seen.records() == seen.rows + 1),
];

const EXTENDED: [(&str, Test); 8] = [
    ("an index extended from nothing", |seen| {
        seen.is(op::EXTEND_INDEX, 0) && seen.case.number == 0 && seen.rows > 0
    }),
    ("one extended from the middle", |seen| {
        seen.is(op::EXTEND_INDEX, 0) && 0 < seen.case.number && seen.case.number < seen.rows
    }),
    ("one that has all records", |seen| {
        seen.is(op::EXTEND_INDEX, 0) && seen.rows > 0 && seen.case.number == seen.rows
    }),
    ("more old records than rows", |seen| {
        seen.is(op::EXTEND_INDEX, INDEX_MISMATCH) && seen.case.number == seen.rows + 1 && seen.stays()
    }),
    ("a wrong old record where there is no room either", |seen| {
        seen.is(op::EXTEND_INDEX, INDEX_MISMATCH) && seen.records() < seen.rows && seen.stays()
    }),
    ("no room behind the old records", |seen| {
        seen.is(op::EXTEND_INDEX, NO_INDEX_ROOM) && seen.case.number > 0 && seen.stays()
    }),
    ("an old count one past the slice", |seen| {
        seen.is(op::EXTEND_INDEX, SETTING) && seen.case.number == seen.records() + 1 && seen.stays()
    }),
    ("an old count that would do in 32 bits", |seen| {
        let cut = u64::from(seen.case.number as u32);
        seen.is(op::EXTEND_INDEX, SETTING) && seen.case.number > MOST && 0 < cut && cut <= seen.records()
    }),
];

const DECODED: [(&str, Test); 11] = [
    ("a row with payload", |seen| seen.is(op::DECODE_INDEXED, 0) && seen.answer.values[2] > 0),
    ("a row of an index with a ragged tail", |seen| {
        seen.is(op::DECODE_INDEXED, 0) && seen.case.index.len() % 16 > 0
    }),
    ("a row of an index that is wrong elsewhere", |seen| {
        let IndexCase { stream, index, .. } = &seen.case;
        seen.is(op::DECODE_INDEXED, 0)
            && index.len() % 16 == 0
            && *index != accepted(&plainly(stream)).index()
    }),
    ("the row after the last", |seen| {
        seen.is(op::DECODE_INDEXED, NO_SUCH_ROW) && seen.case.number == seen.records() && seen.rows > 0
    }),
    ("a row number that would do in 32 bits", |seen| {
        let cut = u64::from(seen.case.number as u32);
        seen.is(op::DECODE_INDEXED, NO_SUCH_ROW) && seen.case.number > MOST && 0 < cut && cut < seen.records()
    }),
    ("a row number that would do once its record's place had wrapped", |seen| {
        let wrapped = seen.case.number.wrapping_mul(16);
        seen.is(op::DECODE_INDEXED, NO_SUCH_ROW)
            && seen.case.number >= 1 << 60
            && wrapped < 16 * seen.records()
    }),
    ("an offset at the stream's end", |seen| seen.offset() == Some(seen.case.stream.input.len() as u64)),
    ("an offset that would do in 32 bits", |seen| {
        let input = seen.case.stream.input.len() as u64;
        seen.offset().is_some_and(|offset| offset > MOST && u64::from(offset as u32) < input)
    }),
    ("the largest offset", |seen| seen.offset() == Some(u64::MAX)),
    ("a byte less than the records", |seen| {
        seen.is(op::DECODE_INDEXED, NO_NODE_ROOM)
            && seen.case.lent[0] as u64 + 1 == 16 * seen.answer.values[0]
    }),
    ("a byte less than the payload", |seen| {
        seen.is(op::DECODE_INDEXED, NO_PAYLOAD_ROOM) && seen.case.lent[1] as u64 + 1 == seen.answer.values[0]
    }),
];

pub fn shown() -> Vec<Shown> {
    let all = BUILT.iter().chain(&CHECKED).chain(&EXTENDED).chain(&DECODED);
    let show = |(words, test): &(&str, Test)| -> Shown {
        let test = *test;
        let shown = move |case: &Case, answer: &Answer| {
            let case = IndexCase::of(case);
            let rows = accepted(&plainly(&case.stream)).rows.len() as u64;
            test(&Seen { case, rows, answer })
        };
        ((*words).to_owned(), Box::new(shown))
    };
    all.map(show).collect()
}
