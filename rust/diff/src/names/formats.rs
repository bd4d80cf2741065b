//! The run over formats and encoders' blocks: what the check of each answers, in which names have their turn after
//! forms (2) and depths (3) and before all rules.

use std::collections::BTreeMap;
use std::fmt;

use plain::answer::number::{NAME_NOT_UTF8, TOO_DEEP};
use plain::answer::Checked;
use plain::format::{encoder_rules, format_rules, names_are_text, validate_encoder, validate_format};
use plain::names::block_is_text;
use plain::report::Report;
use skiff::{sys, Format};

use super::same;
use crate::case::{op, Case};
use crate::compare::{Expected, Tally as Cases};
use crate::fence::Turn;
use crate::generate::named_formats::random;
use crate::generate::{named_edges, Kind};
use crate::in_process::{Reply, ANSWER_SIZES, SHORT_SIZES};
use crate::judge::{checked, lone_block, tables};
use crate::rng::Rng;
use crate::show::describe;
use crate::trap;

/// What is answered, and what would be if names had no turn: the refusal that comes after theirs, or with 3 whether
/// theirs comes after it.
type Turns = (u32, u64, u64);

/// How many cases there were.
#[derive(Debug, Default)]
pub struct Tally {
    pub cases: Cases,
    /// Refusals by operation and number; 0 is accepted.
    pub answers: BTreeMap<(u32, u64), u64>,
    pub turns: BTreeMap<Turns, u64>,
    pub short_answers: u64,
}

const ANSWERS: [(u32, &[u64]); 2] =
    [(op::FORMAT, &[0, 2, 3, 33, 6, 4, 5, 7, 8, 10]), (op::ENCODER, &[0, 2, 3, 33, 4, 5, 9, 10])];

/// Of each the rules that come after names, and none of them.
const AFTER: [(u32, &[u64]); 2] = [(op::FORMAT, &[0, 6, 4, 5, 7, 8, 10]), (op::ENCODER, &[0, 4, 5, 9, 10])];

impl Tally {
    /// What every run has to meet and this one has not.
    fn unmet(&self) -> Vec<String> {
        let each = |(op, numbers): &(u32, &'static [u64])| {
            let op = *op;
            numbers.iter().map(move |number| (op, *number))
        };
        let answers = ANSWERS.iter().flat_map(each).filter(|answer| !self.answers.contains_key(answer));
        let after = AFTER.iter().flat_map(each).map(|(op, number)| (op, NAME_NOT_UTF8, number));
        let before = [op::FORMAT, op::ENCODER].map(|op| (op, TOO_DEEP, NAME_NOT_UTF8));
        let turns = after.chain(before).filter(|turn| !self.turns.contains_key(turn));
        answers
            .map(|(op, number)| format!("operation {op}, answer {number}"))
            .chain(turns.map(|(op, first, then)| format!("operation {op}, {first} before {then}")))
            .collect()
    }
}

impl fmt::Display for Tally {
    fn fmt(&self, out: &mut fmt::Formatter<'_>) -> fmt::Result {
        write!(out, "formats: {}", self.cases)?;
        for (op, name) in [(op::FORMAT, "formats"), (op::ENCODER, "encoders' blocks")] {
            write!(out, " of {name}:")?;
            for ((_, number), count) in self.answers.iter().filter(|((of, _), _)| *of == op) {
                match number {
                    0 => write!(out, " accepted {count},")?,
                    number => write!(out, " refusal {number} {count},")?,
                }
            }
            write!(out, " turns")?;
            for ((_, first, then), count) in self.turns.iter().filter(|((of, ..), _)| *of == op) {
                write!(out, " {first} before {then}: {count},")?;
            }
        }
        write!(out, " {} once more with an answer slice that is too short;", self.short_answers)
    }
}

/// What the plain reading says of a case.
fn plain(case: &Case) -> Checked {
    match case.op {
        op::ENCODER => validate_encoder(&case.records, &case.names, lone_block(case)),
        _ => validate_format(&tables(case)),
    }
}

/// What would come if it were not for the names; and of what is too deep, whether they would.
fn then(case: &Case, number: u64) -> Option<u64> {
    let rules = || match case.op {
        op::ENCODER => encoder_rules(&case.records, lone_block(case)),
        _ => format_rules(&tables(case)),
    };
    let are_text = || match case.op {
        op::ENCODER => block_is_text(&case.records, &case.names, lone_block(case)),
        _ => names_are_text(&tables(case)),
    };
    match number {
        NAME_NOT_UTF8 => Some(rules().err().map_or(0, |refusal| refusal.number)),
        TOO_DEEP => (!are_text()).then_some(NAME_NOT_UTF8),
        _ => None,
    }
}

/// What is wrong about a case, if anything is: its readings, or what the library leaves in an answer slice.
pub fn verdict(case: &Case, number: u64, answer_size: usize) -> Result<Expected, String> {
    let turn = Turn::new(number);
    let held = case.strings().map(|string| turn.hold(string));
    let [records, names, references, registry, _] = held.each_ref().map(|slice| &**slice);
    trap::while_asked(&|| describe(case), || {
        let answer = plain(case);
        let expected = Expected::with(case, checked(answer));
        if !expected.is_one() {
            let Expected { plain, unknown, original, .. } = &expected;
            return Err(format!("plain: {plain}; by the layout alone: {unknown:?}; original: {original:?}"));
        }
        let got = Reply::of(answer_size, turn.place(), |answer| match case.op {
            op::ENCODER => sys::check_encoder_schema(records, names, case.a, case.b, answer),
            _ => sys::check_format(&Format { records, names, references, registry }, answer),
        });
        same(&got, &Reply::expected(&Report::of_checked(&answer), answer_size))?;
        if held.iter().zip(case.strings()).any(|(held, string)| **held != **string) {
            return Err("the call writes to a slice that it was to read".to_owned());
        }
        Ok(expected)
    })
}

/// A case that differs, the number of its call, and the length of its answer slice.
pub struct Found {
    pub case: Case,
    number: u64,
    pub answer_size: usize,
}

impl Found {
    /// What is wrong about another case in its place.
    pub fn why(&self, case: &Case) -> Option<String> {
        verdict(case, self.number, self.answer_size).err()
    }
}

/// Why a run stopped short.
pub enum Stop {
    Difference(Box<Found>),
    /// All answers were right, but these were never among them.
    Unmet(Vec<String>),
}

/// Each case of such a number comes once more, with a slice that is too short for an answer.
const SHORT_EACH: u64 = 16;

impl Tally {
    fn take(&mut self, kind: Kind, case: Case) -> Result<(), Stop> {
        let number = self.cases.cases;
        let turn = number as usize;
        let differs = |case, answer_size| Stop::Difference(Box::new(Found { case, number, answer_size }));
        let size = ANSWER_SIZES[turn % ANSWER_SIZES.len()];
        let Ok(expected) = verdict(&case, number, size) else {
            return Err(differs(case, size));
        };
        self.cases.add(kind, &case, &expected);
        let answer = expected.plain.number;
        *self.answers.entry((case.op, answer)).or_default() += 1;
        if let Some(then) = then(&case, answer) {
            *self.turns.entry((case.op, answer, then)).or_default() += 1;
        }
        if number % SHORT_EACH == 0 {
            self.short_answers += 1;
            let size = SHORT_SIZES[turn / 16 % SHORT_SIZES.len()];
            if verdict(&case, number, size).is_err() {
                return Err(differs(case, size));
            }
        }
        Ok(())
    }
}

/// All fixed cases, then random ones up to `count` in all.
pub fn run(seed: u64, count: u64) -> Result<Tally, Stop> {
    let mut tally = Tally::default();
    let mut stopped = Ok(());
    named_edges::fixed(&mut |kind, case| {
        if stopped.is_ok() && [op::FORMAT, op::ENCODER].contains(&case.op) {
            stopped = tally.take(kind, case);
        }
    });
    stopped?;
    for number in tally.cases.cases..count {
        let (kind, case) = random(&mut Rng::for_case(seed, number));
        tally.take(kind, case)?;
    }
    match tally.unmet() {
        unmet if unmet.is_empty() => Ok(tally),
        unmet => Err(Stop::Unmet(unmet)),
    }
}
