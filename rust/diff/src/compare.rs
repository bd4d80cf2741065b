//! The run: batches of cases to the program, its answers against both readings.

use std::collections::BTreeMap;
use std::fmt;
use std::io;

use plain::answer::number::TRUNCATED;
use plain::format::validate_format;

use crate::blob_limits::BlobLimits;
use crate::case::{Answer, Case};
use crate::generate::{self, Kind};
use crate::judge::{checked, plain_answer, tables};
use crate::original::{self, Said};
use crate::program::Program;
use crate::rng::Rng;

/// A batch goes to one run of the program: long enough to be cheap, short enough to be held.
const BATCH_BYTES: usize = 8 << 20;
const BATCH_CASES: usize = 20_000;

/// What both readings say.
#[derive(Debug, Clone)]
pub struct Expected {
    pub plain: Answer,
    /// A refusal that the original does not know and that the case calls for.
    pub unknown: Option<u64>,
    /// None outside the original's domain.
    pub original: Option<Said>,
    /// Where it can't be asked about the row: what the plain reading and the original say of the format.
    pub format: Option<(Answer, Said)>,
}

impl Expected {
    pub fn of(case: &Case) -> Self {
        Self::with(case, plain_answer(case))
    }

    /// Where the plain reading's answer is at hand.
    pub fn with(case: &Case, plain: Answer) -> Self {
        let original = original::ask(case);
        let of_format = || Some((checked(validate_format(&tables(case))), original::ask_format(case)?));
        let format = if case.reads() && original.is_none() { of_format() } else { None };
        Self { plain, unknown: original::laid::refusal(case), original, format }
    }

    /// The readings agree with each other, and the plain one refuses for what the original does not know just where
    /// it has to.
    pub fn is_one(&self) -> bool {
        let number = self.plain.number;
        let is_known = !original::laid::UNKNOWN.contains(&number);
        let known = self.unknown.map_or(is_known, |unknown| unknown == number);
        let agree = |(plain, said): &(Answer, Said)| said.agrees_with(plain);
        known
            && self.original.as_ref().is_none_or(|said| said.agrees_with(&self.plain))
            && self.format.as_ref().is_none_or(agree)
    }

    /// The program's line is exactly the plain reading's, and the original has nothing against it.
    pub fn is_met_by(&self, line: Option<&str>) -> bool {
        self.is_one() && line == Some(self.plain.to_string().as_str())
    }
}

/// How many cases there were, by kind and by answer.
#[derive(Debug, Default)]
pub struct Tally {
    pub cases: u64,
    pub with_original: u64,
    /// Of the others, those whose format it was asked about.
    pub with_format: u64,
    pub kinds: BTreeMap<Kind, u64>,
    pub numbers: BTreeMap<u64, u64>,
    /// What cut streams were cut in.
    pub contexts: BTreeMap<u64, u64>,
    pub limits: BlobLimits,
}

impl Tally {
    pub fn add(&mut self, kind: Kind, case: &Case, expected: &Expected) {
        self.cases += 1;
        self.limits.add(case, expected.original.is_some());
        self.with_original += u64::from(expected.original.is_some());
        self.with_format += u64::from(expected.format.is_some());
        *self.kinds.entry(kind).or_default() += 1;
        *self.numbers.entry(expected.plain.number).or_default() += 1;
        if expected.plain.number == TRUNCATED {
            *self.contexts.entry(expected.plain.values[0]).or_default() += 1;
        }
    }
}

impl fmt::Display for Tally {
    fn fmt(&self, formatter: &mut fmt::Formatter<'_>) -> fmt::Result {
        write!(formatter, "{} cases ({} also by the original", self.cases, self.with_original)?;
        if self.with_format > 0 {
            write!(formatter, ", of {} more the format", self.with_format)?;
        }
        write!(formatter, "); by kind:")?;
        for (kind, count) in &self.kinds {
            write!(formatter, " {kind} {count},")?;
        }
        write!(formatter, " by answer:")?;
        for (number, count) in &self.numbers {
            let name = match number {
                0 => "accepted".to_owned(),
                255 => "none".to_owned(),
                number => format!("refusal {number}"),
            };
            write!(formatter, " {name} {count},")?;
        }
        if !self.contexts.is_empty() {
            write!(formatter, " cut in context:")?;
        }
        for (context, count) in &self.contexts {
            write!(formatter, " {context}: {count},")?;
        }
        // Cases of the schema side have no settings.
        if self.limits.two > 0 {
            write!(formatter, " {},", self.limits)?;
        }
        Ok(())
    }
}

/// A case whose answer is not what it should be, and all that the program had been asked up to it.
#[derive(Debug)]
pub struct Difference {
    pub case: Case,
    pub line: Option<String>,
    pub batch: Vec<Case>,
}

/// Why a run stopped.
#[derive(Debug)]
pub enum Stop {
    Difference(Box<Difference>),
    Broken(String),
}

impl From<io::Error> for Stop {
    fn from(error: io::Error) -> Self {
        Stop::Broken(format!("the program could not be run: {error}"))
    }
}

struct Run<'a> {
    program: &'a Program,
    tally: Tally,
    batch: Vec<(Kind, Case)>,
    bytes: usize,
}

impl Run<'_> {
    fn take(&mut self, kind: Kind, case: Case) -> Result<(), Stop> {
        self.bytes += case.bytes();
        self.batch.push((kind, case));
        if self.bytes >= BATCH_BYTES || self.batch.len() >= BATCH_CASES {
            self.finish_batch()?;
        }
        Ok(())
    }

    fn finish_batch(&mut self) -> Result<(), Stop> {
        let batch = std::mem::take(&mut self.batch);
        self.bytes = 0;
        let mut input = Vec::new();
        batch.iter().for_each(|(_, case)| case.write_to(&mut input));
        // The readings answer on this processor while the program does on another.
        let readings = || batch.iter().map(|(_, case)| Expected::of(case)).collect::<Vec<_>>();
        let (ran, expected) = self.program.run(&input, readings)?;
        let answers = ran.lines;
        for (index, ((kind, case), expected)) in batch.iter().zip(&expected).enumerate() {
            let line = answers.get(index).cloned().flatten();
            if !expected.is_met_by(line.as_deref()) {
                let batch = batch[..=index].iter().map(|(_, case)| case.clone()).collect();
                return Err(Stop::Difference(Box::new(Difference { case: case.clone(), line, batch })));
            }
            self.tally.add(kind, case, expected);
        }
        if answers.len() > batch.len() {
            let (cases, lines) = (batch.len(), answers.len());
            return Err(Stop::Broken(format!("{lines} answer lines for {cases} cases")));
        }
        if !ran.status.success() {
            return Err(Stop::Broken(format!(
                "all answers were right, but the program ended with {}",
                ran.status
            )));
        }
        Ok(())
    }
}

/// From this count on there is room for all schemas of four nodes.
const ROOM_FOR_FOUR_NODES: u64 = 1_500_000;

/// All fixed cases, then random ones up to `count` in all.
pub fn run(program: &Program, seed: u64, count: u64) -> Result<Tally, Stop> {
    let mut run = Run { program, tally: Tally::default(), batch: Vec::new(), bytes: 0 };
    let mut made = 0;
    let mut stopped = Ok(());
    let mut take = |kind, case| {
        made += 1;
        if stopped.is_ok() {
            stopped = run.take(kind, case);
        }
    };
    generate::fixed(&mut take);
    if count >= ROOM_FOR_FOUR_NODES {
        generate::exhaustive::four_nodes(&mut take);
    }
    stopped?;
    for number in made..count {
        let (kind, case) = generate::random(&mut Rng::for_case(seed, number));
        run.take(kind, case)?;
    }
    run.finish_batch()?;
    Ok(run.tally)
}

#[cfg(test)]
mod tests {
    use super::*;
    use crate::case::op;
    use crate::generate::rows::edges::{schema_a, FULL};
    use crate::generate::rows::usual;
    use crate::plan::{inline, lay_out};
    use plain::settings::Settings;

    /// Were the plain reading to refuse a good format as the library might, it would stand alone: the original is
    /// asked all the same.
    #[test]
    fn a_refusal_that_both_readings_share_is_seen() {
        let mut case = Case { op: op::SKIP, input: FULL.to_vec(), ..Case::default() }.with_settings(usual());
        let block = lay_out(&schema_a(), &mut case.records, &mut case.names);
        case.references.extend(inline(block));
        let dear = Settings { node_charge: 1, ..usual() };
        for settings in [usual(), dear] {
            for op in [op::SKIP, op::RUN, op::DECODE, op::FORMAT] {
                let case = Case { op, ..case.clone() }.with_settings(settings);
                assert!(Expected::of(&case).is_one());
                for number in original::laid::UNKNOWN {
                    let refused = Answer { number, ..Answer::default() };
                    assert!(!Expected::with(&case, refused).is_one(), "{op} {number}");
                }
            }
        }
    }
}
