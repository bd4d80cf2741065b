//! The run over the writing calls: fixed cases, then random ones up to a count.

use std::collections::BTreeMap;
use std::fmt;

use plain::answer::Refusal;
use plain::encoding::{written, Written};
use plain::format::validate_encoder;
use plain::reading::Row;
use plain::value_table::check;

use super::{filled, plain_encoded, round_trip, WriteCase};
use crate::blob_limits::BlobLimits;
use crate::generate::{writes, Kind};
use crate::judge::lone_block;
use crate::original::laid;
use crate::original::writing::{accepts, read_back, write, Wrote};
use crate::rng::Rng;

/// How many calls there were, by kind and by answer.
#[derive(Debug, Default)]
pub struct Tally {
    pub calls: u64,
    pub with_original: u64,
    /// Of the others, those whose schema it was asked about.
    pub with_schema: u64,
    pub round_trips: u64,
    /// Checks of a value table: accepted, and refused by 18.
    pub tables: [u64; 2],
    /// Further calls, with an answer slice that is too short.
    pub short_answers: u64,
    pub kinds: BTreeMap<Kind, u64>,
    pub numbers: BTreeMap<u64, u64>,
    pub limits: BlobLimits,
}

impl fmt::Display for Tally {
    fn fmt(&self, out: &mut fmt::Formatter<'_>) -> fmt::Result {
        let [good, bad] = self.tables;
        let Tally { calls, with_original, with_schema, .. } = self;
        write!(
            out,
            "encode: {calls} cases ({with_original} also by the original, of {with_schema} more the schema)"
        )?;
        write!(out, "; by kind:")?;
        for (kind, count) in &self.kinds {
            write!(out, " {kind} {count},")?;
        }
        write!(out, " by answer:")?;
        for (number, count) in &self.numbers {
            match number {
                0 => write!(out, " accepted {count},")?,
                number => write!(out, " refusal {number} {count},")?,
            }
        }
        write!(out, " {};", self.limits)?;
        write!(out, " {} round trips; value tables: {good} accepted, {bad} refused", self.round_trips)?;
        write!(out, "; {} calls more with a short answer slice;", self.short_answers)?;
        #[cfg(feature = "encode")]
        write!(out, " {}", crate::fence::counted())?;
        Ok(())
    }
}

/// A case that differs, and the number of its call, by which answer slices and the like are chosen.
pub struct Found {
    pub case: WriteCase,
    pub number: u64,
}

impl Found {
    /// What is wrong about another case in its place.
    pub fn why(&self, case: &WriteCase) -> Option<String> {
        verdict(case, self.number, &mut Tally::default()).err()
    }
}

/// Why a run stopped short.
pub enum Stop {
    Difference(Box<Found>),
    /// All answers were right, but these were never among them.
    Unmet(Vec<String>),
}

/// What the plain reading and the original say of the same call.
fn is_one(case: &WriteCase, done: &Result<Row, Refusal>, output: &[u8], wrote: &Wrote) -> bool {
    match (done, wrote) {
        (Ok(row), Wrote::Row(bytes)) => {
            row.bytes == bytes.len() as u64 && output[case.position as usize..].starts_with(bytes)
        }
        // The original takes the room that it needs, and that is what has to be asked for.
        (Err(refusal), Wrote::Row(bytes)) => {
            refusal.number == 21
                && refusal.carried == [bytes.len() as u64, 0, 0]
                && refusal.place == case.position
        }
        (Err(refusal), Wrote::Refused(number, values)) => {
            refusal.number == *number && refusal.carried == *values
        }
        (Ok(_), Wrote::Refused(..)) => false,
    }
}

/// All bytes but the row's are what they were.
fn rest_stayed(case: &WriteCase, done: &Result<Row, Refusal>, output: &[u8]) -> bool {
    let before = filled(case.output);
    let (start, end) = match done {
        Ok(row) => (case.position as usize, (case.position + row.bytes) as usize),
        Err(_) => (0, 0),
    };
    output.len() == before.len() && output[..start] == before[..start] && output[end..] == before[end..]
}

/// What is wrong about a call, if anything is.
fn verdict(case: &WriteCase, number: u64, tally: &mut Tally) -> Result<(), String> {
    let (done, output) = plain_encoded(case);
    let answer = done.map_or_else(|refusal| refusal.number, |_| 0);
    if !rest_stayed(case, &done, &output) {
        return Err("the plain reading writes elsewhere".to_owned());
    }
    let is_table = check(&case.value.records, &case.value.payload).is_ok();
    if is_table != laid::value(&case.value).is_some() {
        return Err(format!(
            "plain: a value table or none: {is_table}; laid out from a value: {}",
            !is_table
        ));
    }
    // What the original does not know is refused where it has to be; all else it is asked about.
    let unknown = laid::write_refusal(case);
    if unknown.map_or(laid::UNKNOWN.contains(&answer), |unknown| unknown != answer) {
        return Err(format!("plain: {done:?}; for what the original does not know: {unknown:?}"));
    }
    let wrote = if unknown.is_none() { write(case) } else { None };
    tally.limits.add(&case.schema, wrote.is_some());
    if let Some(wrote) = &wrote {
        tally.with_original += 1;
        if !is_one(case, &done, &output, wrote) {
            return Err(format!("plain: {done:?}; original: {wrote:?}"));
        }
    } else if let Some(accepted) = accepts(&case.schema) {
        // Under numbers that are refused, or that it can't be given, it has the schema alone.
        tally.with_schema += 1;
        let checked = validate_encoder(&case.schema.records, &case.schema.names, lone_block(&case.schema));
        let told = checked.map_err(|refusal| Wrote::Refused(refusal.number, refusal.carried));
        if told != accepted {
            return Err(format!("the schema, plain: {told:?}; original: {accepted:?}"));
        }
    }
    if let Ok(row) = &done {
        tally.round_trips += 1;
        round_trip::check(case, row, number)?;
        if let Some(Wrote::Row(bytes)) = &wrote {
            let canonical = written(&case.given()).expect("it was written before");
            for bytes in [bytes, &round_trip::loosened(&canonical, number as u8)] {
                if read_back(case, bytes).as_ref() != Some(&case.value) {
                    return Err("the original reads another value back".to_owned());
                }
            }
        }
    }
    #[cfg(feature = "encode")]
    super::library::verdict(case, number, &done, &output, tally)?;
    *tally.numbers.entry(answer).or_default() += 1;
    Ok(())
}

/// Positions, and how much more than the row there is room for.
const POSITIONS: [u64; 6] = [0, 0, 1, 7, 64, 3];
const MORE: [usize; 5] = [0, 0, 1, 9, 300];

/// The calls that are made of a case: with room enough, and with less; each with a position.
pub fn calls(case: WriteCase, number: u64) -> Vec<WriteCase> {
    let position = POSITIONS[number as usize % POSITIONS.len()];
    let start = position as usize;
    let settings_are_good = case.schema.settings().are_good();
    let need = match written(&case.given()) {
        Ok(Written { bytes, .. }) if settings_are_good => bytes.len(),
        // Nothing is to be written; something could be.
        _ => {
            let beyond = if number % 40 == 0 { 41 } else { position % 40 };
            return vec![WriteCase { output: 40, position: beyond, ..case }];
        }
    };
    let enough = start + need + MORE[number as usize / POSITIONS.len() % MORE.len()];
    let (output, less) = match number % 8 {
        0..=3 => (start + need - 1, position),
        4 => (start, position),
        5 => (start + need / 2, position),
        6 => (enough, enough as u64 + 1),
        _ => (enough, [u64::MAX, 1 << 32, (1 << 32) + position][number as usize / 8 % 3]),
    };
    vec![WriteCase { output: enough, position, ..case.clone() }, WriteCase { output, position: less, ..case }]
}

#[derive(Default)]
struct Run {
    tally: Tally,
    found: Option<Found>,
}

impl Run {
    fn take(&mut self, kind: Kind, case: WriteCase) {
        if self.found.is_some() {
            return;
        }
        let is_table = check(&case.value.records, &case.value.payload).is_ok();
        self.tally.tables[usize::from(!is_table)] += 1;
        for case in calls(case, self.tally.calls) {
            self.tally.calls += 1;
            *self.tally.kinds.entry(kind).or_default() += 1;
            let number = self.tally.calls;
            if verdict(&case, number, &mut self.tally).is_err() {
                self.found = Some(Found { case, number });
                return;
            }
        }
    }
}

/// All fixed cases, then random ones up to `count` calls in all that have one limit for blobs, those with two not
/// counted.
pub fn run(seed: u64, count: u64) -> Result<Tally, Stop> {
    let mut run = Run::default();
    writes::edges::fixed(&mut |kind, case| run.take(kind, case));
    let mut number = 0;
    while run.found.is_none() && run.tally.limits.one < count {
        number += 1;
        let (kind, case) = writes::random(&mut Rng::for_case(seed, number));
        run.take(kind, case);
    }
    if let Some(found) = run.found {
        return Err(Stop::Difference(Box::new(found)));
    }
    let met = |number: &u64| run.tally.numbers.contains_key(number);
    let numbers =
        [0, 1, 2, 3, 4, 5, 9, 10, 14, 15, 16, 17, 18, 21, 33].into_iter().filter(|number| !met(number));
    let mut unmet: Vec<String> = numbers.map(|number| format!("answer {number}")).collect();
    unmet.extend(run.tally.limits.unmet());
    if unmet.is_empty() {
        Ok(run.tally)
    } else {
        Err(Stop::Unmet(unmet))
    }
}
