//! The value query and the row view: of each record of a decoded row, and of the same table damaged.

use std::fmt;

use plain::report::Report;
use plain::tables::{record_count, RECORD_BYTES};
use plain::value_table::{value, value_record};
use plain::view::{self, Viewed};
use skiff::sys;

use super::unanswered;
use crate::fence::{Held, Turn};
use crate::original::views::asked_fields;
use crate::rng::Rng;

/// What was asked: the rows, their records, those of them damaged, and how many of these were refused.
#[derive(Debug, Clone, Copy, Default)]
pub struct Queried {
    pub rows: u64,
    pub records: u64,
    pub damaged: u64,
    pub refused: u64,
    /// Records that are not there.
    pub absent: u64,
    /// Of the row view: kinds, tags, child counts and records behind; fields; and how many of them all were refused.
    pub viewed: u64,
    pub fields: u64,
    pub views_refused: u64,
}

impl Queried {
    pub fn add(&mut self, more: &Queried) {
        self.rows += more.rows;
        self.records += more.records;
        self.damaged += more.damaged;
        self.refused += more.refused;
        self.absent += more.absent;
        self.viewed += more.viewed;
        self.fields += more.fields;
        self.views_refused += more.views_refused;
    }
}

impl fmt::Display for Queried {
    fn fmt(&self, out: &mut fmt::Formatter<'_>) -> fmt::Result {
        let Queried { rows, records, damaged, refused, absent, viewed, fields, views_refused } = self;
        write!(
            out,
            "value: {records} records of {rows} decoded rows, {damaged} of damaged tables ({refused} refused), \
             {absent} that are not there, view of the same records: {viewed} kinds, tags, child counts and records \
             behind, {fields} fields ({views_refused} of all these refused),"
        )
    }
}

/// A table between unreadable pages, and an answer slice that serves one query after another.
struct Asker {
    records: Held,
    answer: Held,
    unanswered: Vec<u8>,
    wanted: Vec<u8>,
}

impl Asker {
    fn new(records: &[u8], answer_size: usize, turn: &Turn) -> Self {
        let unanswered = unanswered(answer_size);
        Self {
            records: turn.hold(records),
            answer: turn.hold(&unanswered),
            wanted: unanswered.clone(),
            unanswered,
        }
    }

    /// Whether a call answers this, in every byte.
    fn is(&mut self, report: &Report, call: impl FnOnce(&[u8], &mut [u8]) -> u32) -> bool {
        self.answer.copy_from_slice(&self.unanswered);
        self.wanted.copy_from_slice(&self.unanswered);
        let wanted = report.write_to(&mut self.wanted);
        call(&self.records, &mut self.answer) == wanted && *self.answer == *self.wanted
    }

    /// The answer to one query, if it is what the plain reading says: whether the record's value was told.
    fn told(&mut self, index: u64) -> Option<bool> {
        let wanted = value(&self.records, index);
        let report = Report::of_value(&wanted);
        self.is(&report, |records, answer| sys::value(records, index, answer)).then_some(wanted.is_ok())
    }

    /// One call of the row view, if it answers this: whether a number was told.
    fn seen(&mut self, wanted: &Viewed, call: impl FnOnce(&[u8], &mut [u8]) -> u32) -> Option<bool> {
        self.is(&Report::of_viewed(wanted), call).then_some(wanted.is_ok())
    }

    /// All that the row view is asked about a record, if the answers are what the plain reading says; how many of
    /// them there were, and of these refused.
    fn viewed(&mut self, index: u64, queried: &mut Queried) -> Option<()> {
        type Rule = fn(&[u8], u64) -> Viewed;
        type Getter = fn(&[u8], u64, &mut [u8]) -> u32;
        const GETTERS: [(Rule, Getter); 4] = [
            (view::kind, sys::kind),
            (view::tag, sys::tag),
            (view::child_count, sys::child_count),
            (view::after, sys::after),
        ];
        for (rule, getter) in GETTERS {
            let wanted = rule(&self.records, index);
            let told = self.seen(&wanted, |records, answer| getter(records, index, answer))?;
            queried.viewed += 1;
            queried.views_refused += u64::from(!told);
        }
        // A record that is not there has no fields, and neither has one that is no tuple: both are asked for one.
        let there = index < record_count(&self.records);
        let record = there.then(|| value_record(&self.records, index)).filter(|record| record.kind == 17);
        for asked in asked_fields(index % (1 << 32), record.map_or(0, |record| record.size)) {
            let wanted = view::field(&self.records, index, asked);
            let told = self.seen(&wanted, |records, answer| sys::field(records, index, asked, answer))?;
            queried.fields += 1;
            queried.views_refused += u64::from(!told);
        }
        Some(())
    }
}

/// Bytes that kinds, sizes and truths turn on.
const TELLING: [u8; 10] = [0, 1, 2, 16, 17, 18, 32, 0x7F, 0x80, 0xFF];

/// A table with a byte or two of it changed, or cut inside a record; by its own bytes, so that it is always
/// damaged alike.
fn damaged(records: &[u8]) -> Vec<u8> {
    let sum = records.iter().fold(0_u64, |sum, byte| sum.wrapping_mul(31).wrapping_add(u64::from(*byte)));
    let rng = &mut Rng::for_case(records.len() as u64, sum);
    let mut table = records.to_vec();
    if rng.one_in(16) {
        table.truncate(records.len() - rng.between(1, RECORD_BYTES - 1));
        return table;
    }
    for _ in 0..rng.between(1, 2) {
        let at = rng.below(table.len());
        match rng.below(3) {
            0 => table[at] ^= 1 << rng.below(8),
            1 => table[at] = *rng.pick(&TELLING),
            _ => {
                let kind = at / RECORD_BYTES * RECORD_BYTES;
                table[kind] = rng.below(20) as u8;
            }
        }
    }
    table
}

/// All queries about a decoded row's table; none where an answer is another than the plain reading's.
pub fn ask(records: &[u8], answer_size: usize, turn: &Turn) -> Option<Queried> {
    let count = record_count(records);
    let mut queried = Queried { rows: 1, ..Queried::default() };
    let mut whole = Asker::new(records, answer_size, turn);
    for index in 0..count {
        // Decoded records are never refused.
        if !whole.told(index)? {
            return None;
        }
        whole.viewed(index, &mut queried)?;
        queried.records += 1;
    }
    let table = damaged(records);
    let mut damaged = Asker::new(&table, answer_size, turn);
    for index in 0..record_count(&table) {
        queried.refused += u64::from(!damaged.told(index)?);
        damaged.viewed(index, &mut queried)?;
        queried.damaged += 1;
    }
    for index in [count, count + (1 << 32)] {
        whole.viewed(index, &mut queried)?;
        damaged.viewed(index, &mut queried)?;
    }
    let absent = [whole.told(count)?, damaged.told(count)?, whole.told(count + (1 << 32))?];
    if absent.contains(&true) || *whole.records != *records || *damaged.records != *table {
        return None;
    }
    queried.absent += absent.len() as u64;
    Some(queried)
}

/// Some queries with too short a slice for their answers, which nothing is written to.
pub fn ask_in_vain(records: &[u8], answer_size: usize, turn: &Turn) -> Option<Queried> {
    let mut whole = Asker::new(records, answer_size, turn);
    let queried = &mut Queried::default();
    let mut told = |index| whole.told(index).is_some() && whole.viewed(index, queried).is_some();
    (0..=record_count(records)).take(4).all(&mut told).then(Queried::default)
}
