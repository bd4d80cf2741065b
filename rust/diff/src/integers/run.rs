//! The run over the text of integers: every narrow one, the edges of all widths, what is no integer, then random ones;
//! each with room enough, with just enough, a byte too little, none, and with too short an answer slice.

use std::collections::BTreeMap;
use std::fmt;

use plain::answer::number::{NO_OUTPUT_ROOM, SETTING};
use plain::integer::MOST_BYTES;
use skiff::sys::INTEGER_TEXT_BYTES;

use super::{verdict, IntegerCase};
use crate::generate::integers::{edges, random};
use crate::generate::Kind;
use crate::in_process::{ANSWER_SIZES, SHORT_SIZES};
use crate::indexing::filled;
use crate::rng::Rng;
use crate::room::Slack;

/// How many integers there were, by kind, and how many calls, by answer.
#[derive(Debug, Default)]
pub struct Tally {
    pub calls: u64,
    pub kinds: BTreeMap<Kind, u64>,
    /// Refusals by number; 0 is a text.
    pub numbers: BTreeMap<u64, u64>,
    /// Calls with an answer slice that is too short, not counted by answer.
    pub short_answers: u64,
    /// Texts by how many bytes they have.
    pub texts: BTreeMap<u64, u64>,
}

impl Tally {
    /// What every run has to meet and this one has not: each answer, and a text of each length.
    fn unmet(&self) -> Vec<String> {
        let numbers =
            [0, SETTING, NO_OUTPUT_ROOM].into_iter().filter(|number| !self.numbers.contains_key(number));
        let lengths = (1..=INTEGER_TEXT_BYTES as u64).filter(|length| !self.texts.contains_key(length));
        numbers
            .map(|number| format!("answer {number}"))
            .chain(lengths.map(|length| format!("a text of {length} bytes")))
            .collect()
    }
}

impl fmt::Display for Tally {
    fn fmt(&self, out: &mut fmt::Formatter<'_>) -> fmt::Result {
        write!(out, "integers:")?;
        for (kind, count) in &self.kinds {
            write!(out, " {kind} {count},")?;
        }
        write!(out, " {} calls; by answer:", self.calls)?;
        for (number, count) in &self.numbers {
            match number {
                0 => write!(out, " text {count},")?,
                number => write!(out, " refusal {number} {count},")?,
            }
        }
        write!(out, " an answer slice that is too short {};", self.short_answers)?;
        write!(out, " texts of {} lengths; {}", self.texts.len(), crate::fence::counted())
    }
}

/// A case that differs, and the number of its call.
pub struct Found {
    pub case: IntegerCase,
    number: u64,
}

impl Found {
    /// What is wrong about another case in its place.
    pub fn why(&self, case: &IntegerCase) -> Option<String> {
        verdict(case, self.number).err()
    }
}

/// Why a run stopped short.
pub enum Stop {
    Difference(Box<Found>),
    /// All answers were right, but these were never among them.
    Unmet(Vec<String>),
}

/// The calls about an integer, of that number.
pub(super) fn calls(bytes: Vec<u8>, number: u64) -> [IntegerCase; 5] {
    let turn = number as usize;
    let answer = ANSWER_SIZES[turn % ANSWER_SIZES.len()];
    let with = |room: Slack, answer: usize| IntegerCase { bytes: bytes.clone(), room, answer };
    let enough = Slack::More(1 + turn % 70);
    [
        with(enough, answer),
        with(Slack::More(0), answer),
        with(Slack::Less(1), answer),
        with(Slack::Nothing, answer),
        with(enough, SHORT_SIZES[turn % SHORT_SIZES.len()]),
    ]
}

#[derive(Default)]
struct Run {
    tally: Tally,
    integers: u64,
}

impl Run {
    fn take(&mut self, kind: Kind, bytes: Vec<u8>) -> Result<(), Stop> {
        self.integers += 1;
        *self.tally.kinds.entry(kind).or_default() += 1;
        for case in calls(bytes, self.integers) {
            self.tally.calls += 1;
            let number = self.tally.calls;
            let Ok(report) = verdict(&case, number) else {
                return Err(Stop::Difference(Box::new(Found { case, number })));
            };
            if SHORT_SIZES.contains(&case.answer) {
                self.tally.short_answers += 1;
                continue;
            }
            *self.tally.numbers.entry(report.number).or_default() += 1;
            if report.number == 0 {
                *self.tally.texts.entry(report.bytes).or_default() += 1;
            }
        }
        Ok(())
    }

    fn fixed(&mut self) -> Result<(), Stop> {
        (0..=u8::MAX).try_for_each(|byte| self.take("all of 1 byte", vec![byte]))?;
        (0..=u16::MAX).try_for_each(|number| self.take("all of 2 bytes", number.to_le_bytes().to_vec()))?;
        for width in 1..=MOST_BYTES {
            edges(width).into_iter().try_for_each(|number| self.take("edges of every width", number))?;
        }
        for width in [0, 33, 34, 48, 63, 64, 65, 128, 256, 257, 288, 1_000, 65_536, 65_552] {
            for bytes in [vec![0; width], vec![0xFF; width], filled(1, width)] {
                self.take("no integers", bytes)?;
            }
        }
        Ok(())
    }
}

/// Of the random ones a third has 16 bytes, a third 32, and a third any width.
fn drawn(seed: u64, number: u64) -> (Kind, Vec<u8>) {
    let rng = &mut Rng::for_case(seed, number);
    let (kind, width) = match number % 3 {
        0 => ("random of 16 bytes", 16),
        1 => ("random of 32 bytes", 32),
        _ => ("random of any width", rng.between(1, MOST_BYTES)),
    };
    (kind, random(rng, width))
}

/// All fixed integers, then as many random ones.
pub fn run(seed: u64, count: u64) -> Result<Tally, Stop> {
    let mut run = Run::default();
    run.fixed()?;
    for number in 0..count {
        let (kind, bytes) = drawn(seed, number);
        run.take(kind, bytes)?;
    }
    match run.tally.unmet() {
        unmet if unmet.is_empty() => Ok(run.tally),
        unmet => Err(Stop::Unmet(unmet)),
    }
}
