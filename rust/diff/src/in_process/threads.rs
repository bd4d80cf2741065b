//! Two threads that read at once: the slices that are read are shared, and can't be written while they are; each
//! thread has its own for what is written.

use plain::format::validate_format;
use plain::report::{what, Report};
use plain::tables::{record_count, RECORD_BYTES};
use plain::value_table::value;
use plain::view::{self, Viewed};
use skiff::sys;

use super::decoding::filled;
use super::{Given, Reply};
use crate::at_once::by_two_threads;
use crate::case::{op, Case};
use crate::fence::{ReadOnly, Turn};
use crate::generate::rows;
use crate::judge::{plain_decoded, plain_report, tables};
use crate::rng::Rng;
use crate::room::Room;
use crate::show::describe;
use crate::trap;

/// So many cases are drawn.
const CASES: u64 = 3_000;

/// Of a decoded row so many records are asked for.
const MOST_RECORDS: usize = 40;

/// A case, its slices, and what the calls about it have to leave.
struct Question {
    case: Case,
    slices: [ReadOnly; 5],
    read: Reply,
    checked: Reply,
    decoding: Case,
    decoded: Reply,
    /// The records of the row, where it is one.
    table: ReadOnly,
    /// What each of the calls about a record has to leave.
    told: Vec<[Reply; 6]>,
}

/// The calls about one record, and what the plain reading has them write.
const CALLS: [fn(&[u8], u64, &mut [u8]) -> u32; 6] =
    [sys::value, sys::kind, sys::tag, sys::child_count, sys::after, |records, index, answer| {
        sys::field(records, index, 0, answer)
    }];

fn reports(table: &[u8], index: u64) -> [Report; 6] {
    let viewed = |getter: fn(&[u8], u64) -> Viewed| Report::of_viewed(&getter(table, index));
    [
        Report::of_value(&value(table, index)),
        viewed(view::kind),
        viewed(view::tag),
        viewed(view::child_count),
        viewed(view::after),
        viewed(|table, index| view::field(table, index, 0)),
    ]
}

const ANSWER: usize = 88;

impl Question {
    fn new(number: u64) -> Self {
        let (_, case) = rows::random(&mut Rng::for_case(2, number));
        let turn = Turn::new(number);
        let slices = case.strings().map(|string| ReadOnly::new(string, turn.place()));
        let read = Reply::expected(&plain_report(&case), ANSWER);
        let checked = Reply::expected(&Report::of_checked(&validate_format(&tables(&case))), ANSWER);
        let decoding = Room::EXACT.lend(Case { op: op::DECODE, ..case.clone() });
        let (report, lent) = plain_decoded(&decoding, filled(decoding.lent()));
        let records = if report.what == what::ROW { report.records as usize * RECORD_BYTES } else { 0 };
        let table = &lent[0][..records];
        let told = |index| reports(table, index).map(|report| Reply::expected(&report, ANSWER));
        let told = (0..=record_count(table)).take(MOST_RECORDS).map(told).collect();
        let table = ReadOnly::new(table, turn.place());
        let decoded = Reply { lent: Some(lent), ..Reply::expected(&report, ANSWER) };
        Self { case, slices, read, checked, decoding, decoded, table, told }
    }

    /// How many calls were made, or which is answered otherwise.
    fn ask(&self, number: u64) -> Result<u64, &'static str> {
        let slices = self.slices.each_ref().map(|slice| &**slice);
        let given = Given { case: &self.case, slices, turn: Turn::new(number) };
        if given.read(self.case.op, ANSWER) != self.read {
            return Err(if self.case.op == op::RUN { "run" } else { "skip" });
        }
        let format = given.format();
        if Reply::of(ANSWER, given.turn.place(), |answer| sys::check_format(&format, answer)) != self.checked
        {
            return Err("the check of the format");
        }
        let decoding = Given { case: &self.decoding, slices, turn: Turn::new(!number) };
        if decoding.decode(ANSWER, &filled(self.decoding.lent())) != self.decoded {
            return Err("decode");
        }
        for (index, wanted) in (0..).zip(&self.told) {
            for (call, wanted) in CALLS.iter().zip(wanted) {
                let place = given.turn.place();
                if Reply::of(ANSWER, place, |answer| call(&self.table, index, answer)) != *wanted {
                    return Err("the value of a record, or what the row view tells of it");
                }
            }
        }
        Ok((3 + CALLS.len() * self.told.len()) as u64)
    }
}

/// How many calls were right, or the first that was not.
pub fn check() -> Result<u64, String> {
    let questions: Vec<Question> = (0..CASES).map(Question::new).collect();
    by_two_threads(&questions, |question, number| {
        let told = || describe(&question.case);
        trap::while_asked(&told, || question.ask(number)).map_err(|call| format!("{call}\n{}", told()))
    })
}
