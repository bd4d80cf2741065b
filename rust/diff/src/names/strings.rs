//! The run over strings: all of up to three bytes, the edges, then random ones. There are many, so each is laid in the
//! same memory, between unreadable pages too; every byte of the answer slice is compared all the same. Some come once
//! more, with slices of their own and with answer slices of other lengths.

use std::collections::BTreeMap;
use std::fmt;

use plain::answer::number::NAME_NOT_UTF8;
use plain::answer::Refusal;
use plain::report::Report;
use skiff::sys::{self, ANSWER_SIZE};

use super::{describe, plainly, verdict, NameCase};
use crate::fence::{Place, Spot};
use crate::generate::{names, Kind};
use crate::in_process::{unanswered, Reply, ANSWER_SIZES, SHORT_SIZES};
use crate::rng::Rng;
use crate::trap;

/// How many strings there were, by kind and by answer.
#[derive(Debug, Default)]
pub struct Tally {
    pub strings: u64,
    pub kinds: BTreeMap<Kind, u64>,
    /// Those that are text, and those that are none.
    pub answers: [u64; 2],
    /// Strings that came once more, with slices of their own.
    pub once_more: u64,
    /// Of these, the ones with an answer slice that is too short.
    pub short_answers: u64,
}

impl fmt::Display for Tally {
    fn fmt(&self, out: &mut fmt::Formatter<'_>) -> fmt::Result {
        let Tally { strings, answers: [text, none], once_more, short_answers, .. } = self;
        write!(out, "names: {strings}; by kind:")?;
        for (kind, count) in &self.kinds {
            write!(out, " {kind} {count},")?;
        }
        write!(out, " by answer: text {text}, refusal {NAME_NOT_UTF8} {none},")?;
        write!(out, " {once_more} once more, {short_answers} of them with an answer slice that is too short;")
    }
}

/// A case that differs, and the number of its call.
pub struct Found {
    pub case: NameCase,
    number: u64,
}

impl Found {
    /// What is wrong about another case in its place.
    pub fn why(&self, case: &NameCase) -> Option<String> {
        verdict(case, self.number).err()
    }
}

/// Each string of such a number comes once more.
const ONCE_MORE: u64 = 61;

const PLACES: [Place; 4] = [Place::End, Place::Odd, Place::Start, Place::Odd];

/// What one call is asked and has to leave.
pub struct Asker {
    name: Spot,
    answer: Spot,
    before: Vec<u8>,
    /// What a name that is text has it leave, and one that is none.
    wanted: [Reply; 2],
}

impl Asker {
    pub fn new() -> Self {
        let reports = [Ok(()), Err(Refusal::bare(NAME_NOT_UTF8))].map(|answer| Report::of_checked(&answer));
        let wanted = reports.map(|report| Reply::expected(&report, ANSWER_SIZE));
        Self { name: Spot::new(), answer: Spot::new(), before: unanswered(ANSWER_SIZE), wanted }
    }

    /// Whether a string is text, or nothing where it is judged otherwise.
    fn ask(&mut self, name: &[u8], number: u64) -> Option<bool> {
        let is_text = plainly(name).ok()?.number == 0;
        let places = [number, number / 4].map(|turn| PLACES[turn as usize % PLACES.len()]);
        let held = self.name.hold(name, places[0]);
        let answer = self.answer.hold(&self.before, places[1]);
        let told = || describe(&NameCase { name: name.to_vec(), answer: ANSWER_SIZE });
        let returned = trap::while_asked(&told, || sys::check_name(held, answer));
        let wanted = &self.wanted[usize::from(!is_text)];
        let is_right = returned == wanted.returned && *answer == *wanted.answer && *held == *name;
        is_right.then_some(is_text)
    }
}

struct Run {
    asker: Asker,
    tally: Tally,
    found: Option<Found>,
}

/// A string longer than this has slices of its own.
const SHORT: usize = 4_096;

impl Run {
    fn take(&mut self, kind: Kind, name: &[u8]) {
        if self.found.is_some() {
            return;
        }
        self.tally.strings += 1;
        let number = self.tally.strings;
        *self.tally.kinds.entry(kind).or_default() += 1;
        let said = if name.len() <= SHORT {
            self.asker.ask(name, number)
        } else {
            self.once_more(name, ANSWER_SIZE);
            Some(plainly(name).is_ok_and(|report| report.number == 0))
        };
        match said {
            Some(is_text) => self.tally.answers[usize::from(!is_text)] += 1,
            None => self.differs(name, ANSWER_SIZE),
        }
        if number % ONCE_MORE == 0 {
            let turn = (number / ONCE_MORE) as usize;
            let sizes = if turn % 4 == 0 { &SHORT_SIZES[..] } else { &ANSWER_SIZES[..] };
            self.once_more(name, sizes[turn / 4 % sizes.len()]);
        }
    }

    fn once_more(&mut self, name: &[u8], answer: usize) {
        self.tally.once_more += 1;
        self.tally.short_answers += u64::from(answer < ANSWER_SIZE);
        if verdict(&NameCase { name: name.to_vec(), answer }, self.tally.strings).is_err() {
            self.differs(name, answer);
        }
    }

    fn differs(&mut self, name: &[u8], answer: usize) {
        let case = NameCase { name: name.to_vec(), answer };
        self.found = Some(Found { case, number: self.tally.strings });
    }

    /// Every string of up to three bytes.
    fn all_short(&mut self) {
        self.take("all of 0 to 3 bytes", &[]);
        for length in 1..=3 {
            for number in 0..1_u32 << (8 * length) {
                self.take("all of 0 to 3 bytes", &number.to_be_bytes()[4 - length..]);
            }
            if self.found.is_some() {
                return;
            }
        }
    }
}

/// All short strings and all edges, then as many random ones; or the first that differs.
pub fn run(seed: u64, count: u64) -> Result<Tally, Box<Found>> {
    let mut run = Run { asker: Asker::new(), tally: Tally::default(), found: None };
    run.all_short();
    names::fixed(&mut |kind, name| run.take(kind, name));
    let mut number = 0;
    while run.found.is_none() && number < count {
        let (kind, name) = names::random(&mut Rng::for_case(seed, number));
        run.take(kind, &name);
        number += 1;
    }
    match run.found {
        Some(found) => Err(Box::new(found)),
        None => Ok(run.tally),
    }
}
