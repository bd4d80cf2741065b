//! The run over the index calls: fixed cases, then random ones up to a count.

use std::collections::BTreeMap;
use std::fmt;

use plain::answer::number::{INDEX_MISMATCH, NO_INDEX_ROOM, NO_NODE_ROOM, NO_PAYLOAD_ROOM, NO_SUCH_ROW};

use super::{filled_lent, left_over, Call, IndexCase, Left, CALLS};
use crate::blob_limits::BlobLimits;
use crate::generate::{indexes, Kind};
use crate::original::indexing as original;
use crate::original::laid;
use crate::rng::Rng;

/// How many calls there were, by kind and by answer.
#[derive(Debug, Default)]
pub struct Tally {
    pub calls: u64,
    pub with_original: u64,
    /// Further calls, with an answer slice that is too short.
    pub short_answers: u64,
    /// Calls of run and decode, for answers that have to be theirs.
    pub beside: u64,
    pub kinds: BTreeMap<Kind, u64>,
    pub numbers: BTreeMap<(Call, u64), u64>,
    /// Of row n's 31: its offset is past the stream, or another row is there.
    pub mismatches: [u64; 2],
    pub limits: BlobLimits,
}

impl fmt::Display for Tally {
    fn fmt(&self, out: &mut fmt::Formatter<'_>) -> fmt::Result {
        write!(out, "index: {} cases ({} also by the original); by kind:", self.calls, self.with_original)?;
        for (kind, count) in &self.kinds {
            write!(out, " {kind} {count},")?;
        }
        for wanted in CALLS {
            write!(out, " {wanted}:")?;
            for ((call, number), count) in &self.numbers {
                match number {
                    _ if *call != wanted => {}
                    0 => write!(out, " accepted {count},")?,
                    number => write!(out, " refusal {number} {count},")?,
                }
            }
        }
        write!(out, " {};", self.limits)?;
        let [past, another] = self.mismatches;
        write!(out, " of row n's 31: {past} past the stream, {another} of another row;")?;
        write!(out, " {} calls of run and decode beside them,", self.beside)?;
        write!(out, " {} calls more with a short answer slice;", self.short_answers)?;
        #[cfg(feature = "index")]
        write!(out, " {}", crate::fence::counted())?;
        Ok(())
    }
}

/// What the format and the rows are refused by, in every call.
const OF_STREAMS: [u64; 15] = [0, 1, 2, 3, 4, 5, 6, 7, 8, 10, 11, 13, 14, 17, 33];

fn own(call: Call) -> &'static [u64] {
    match call {
        Call::Build => &[12, NO_INDEX_ROOM],
        Call::Check => &[12, INDEX_MISMATCH],
        Call::Extend => &[12, NO_INDEX_ROOM, INDEX_MISMATCH],
        Call::Row => &[12, NO_NODE_ROOM, NO_PAYLOAD_ROOM, INDEX_MISMATCH, NO_SUCH_ROW],
    }
}

impl Tally {
    /// What every run has to meet and this one has not.
    fn unmet(&self) -> Vec<String> {
        let mut unmet = Vec::new();
        for call in CALLS {
            for number in OF_STREAMS.iter().chain(own(call)) {
                if !self.numbers.contains_key(&(call, *number)) {
                    unmet.push(format!("{call} answer {number}"));
                }
            }
        }
        if self.mismatches.contains(&0) {
            unmet.push("row n's 31, each way".to_owned());
        }
        unmet.extend(self.limits.unmet());
        unmet
    }
}

/// A case that differs, and the number of its call, by which answer slices and places are chosen.
pub struct Found {
    pub case: IndexCase,
    pub number: u64,
}

impl Found {
    /// What is wrong about another case in its place.
    pub fn why(&self, case: &IndexCase) -> Option<String> {
        verdict(case, self.number, &mut Tally::default()).err()
    }
}

/// Why a run stopped short.
pub enum Stop {
    Difference(Box<Found>),
    /// All answers were right, but these were never among them.
    Unmet(Vec<String>),
}

/// A refused call writes nothing; another one only what it is for.
fn rest_stayed(case: &IndexCase, left: &Left, lent: &[Vec<u8>; 2]) -> bool {
    let report = &left.report;
    let written = match case.call {
        _ if report.number != 0 => [0..0, 0..0, 0..0],
        Call::Build => [0..16 * report.rows as usize, 0..0, 0..0],
        Call::Extend => [16 * case.number as usize..16 * report.rows as usize, 0..0, 0..0],
        Call::Check => [0..0, 0..0, 0..0],
        Call::Row => [0..0, 0..16 * report.records as usize, 0..report.payload as usize],
    };
    let before = [&case.index, &lent[0], &lent[1]];
    let after = [&left.index, &left.lent[0], &left.lent[1]];
    before.into_iter().zip(after).zip(written).all(|((before, after), written)| {
        before.len() == after.len()
            && before[..written.start] == after[..written.start]
            && before[written.end..] == after[written.end..]
    })
}

/// What is wrong about a call, if anything is.
fn verdict(case: &IndexCase, number: u64, tally: &mut Tally) -> Result<(), String> {
    let lent = filled_lent(case);
    let plain = left_over(&case.plainly(), case, lent.clone());
    let answer = plain.report.number;
    if !rest_stayed(case, &plain, &lent) {
        return Err("the plain reading writes elsewhere".to_owned());
    }
    // What the original does not know is refused where it has to be; all else it is asked about.
    let unknown = laid::index_refusal(case);
    if unknown.map_or(laid::UNKNOWN.contains(&answer), |unknown| unknown != answer) {
        return Err(format!("plain: {:?}; for what the original does not know: {unknown:?}", plain.report));
    }
    let original = original::ask(case, lent.clone());
    tally.limits.add(&case.stream, original.is_some());
    if let Some(original) = original {
        tally.with_original += 1;
        if !original::agrees(&plain, &original) {
            return Err(format!("plain: {plain:02x?}; over the original's rows: {original:02x?}"));
        }
    }
    #[cfg(feature = "index")]
    super::library::verdict(case, number, &plain, &lent, tally)?;
    #[cfg(not(feature = "index"))]
    let _ = number;
    *tally.numbers.entry((case.call, answer)).or_default() += 1;
    if case.call == Call::Row && answer == INDEX_MISMATCH {
        tally.mismatches[usize::from(case.offset().is_some())] += 1;
    }
    Ok(())
}

#[derive(Default)]
struct Run {
    tally: Tally,
    found: Option<Found>,
}

impl Run {
    fn take(&mut self, kind: Kind, case: IndexCase) {
        if self.found.is_some() {
            return;
        }
        self.tally.calls += 1;
        *self.tally.kinds.entry(kind).or_default() += 1;
        let number = self.tally.calls;
        if verdict(&case, number, &mut self.tally).is_err() {
            self.found = Some(Found { case, number });
        }
    }
}

/// All fixed cases, then random ones up to `count` calls in all that have one limit for blobs, those with two not
/// counted.
pub fn run(seed: u64, count: u64) -> Result<Tally, Stop> {
    let mut run = Run::default();
    indexes::edges::fixed(&mut |kind, case| run.take(kind, case));
    let mut number = 0;
    while run.found.is_none() && run.tally.limits.one < count {
        number += 1;
        for (kind, case) in indexes::random(&mut Rng::for_case(seed, number)) {
            run.take(kind, case);
        }
    }
    if let Some(found) = run.found {
        return Err(Stop::Difference(Box::new(found)));
    }
    let unmet = run.tally.unmet();
    if unmet.is_empty() {
        Ok(run.tally)
    } else {
        Err(Stop::Unmet(unmet))
    }
}
