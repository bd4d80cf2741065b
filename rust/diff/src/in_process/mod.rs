//! The reading calls of the library and the value query, linked into this process.

pub mod checks;
pub mod decoding;
pub mod huge;
pub mod long;
pub mod threads;
pub mod values;

use std::collections::BTreeSet;
use std::fmt;

use plain::answer::number::{NAME_NOT_UTF8, NO_NODE_ROOM, NO_PAYLOAD_ROOM};
use plain::report::Report;
use plain::settings::Settings;
use skiff::sys::{self, Numbers};
use skiff::Format;

use crate::case::{op, Case};
use crate::compare::{Expected, Tally};
use crate::fence::{self, Held, Place, Slices, Turn};
use crate::generate::{rows, Kind};
use crate::judge::{line, plain_report};
use crate::rng::Rng;
use crate::room::Room;
use crate::show::describe;
use crate::trap;
use values::Queried;

/// Answer slices come in these lengths, in turn: just long enough, and longer ones.
pub(crate) const ANSWER_SIZES: [usize; 8] = [88, 89, 200, 96, 88, 120, 88, 89];

/// Each sixteenth case comes once more, with a slice that is too short for an answer.
pub(crate) const SHORT_SIZES: [usize; 5] = [87, 0, 1, 80, 8];
const SHORT_EACH: u64 = 16;

/// Of a lent slice no more bytes are printed.
const MOST_SHOWN: usize = 160;

/// What an answer slice holds before a call: no byte is what its neighbours are.
fn filling(index: usize) -> u8 {
    (index as u8).wrapping_mul(37) ^ 0xA5
}

/// The filling of the record slice and of the payload slice begins so far on: neither starts as the answer
/// slice does, or as the other.
const LENT_FILLING: [usize; 2] = [7, 77];

/// What a call left: its number, its whole answer slice, and what a decoding one was lent besides.
#[derive(Debug, Clone, PartialEq, Eq)]
pub struct Reply {
    pub returned: u32,
    pub answer: Vec<u8>,
    /// The record slice and the payload slice.
    pub lent: Option<[Vec<u8>; 2]>,
}

pub(crate) fn numbers(settings: Settings) -> Numbers {
    let Settings { node_charge, max_string32_bytes, max_yson32_bytes, max_row_bytes } = settings;
    Numbers { node_charge, max_string32_bytes, max_yson32_bytes, max_row_bytes }
}

/// What the library is given of a case: its numbers, and each of its slices between unreadable pages.
struct Given<'a> {
    case: &'a Case,
    slices: [&'a [u8]; 5],
    /// For the slices that are written.
    turn: Turn,
}

impl Given<'_> {
    fn numbers(&self) -> Numbers {
        numbers(self.case.settings())
    }

    fn format(&self) -> Format<'_> {
        let [records, names, references, registry, _] = self.slices;
        Format { records, names, references, registry }
    }

    fn input(&self) -> &[u8] {
        self.slices[4]
    }

    /// What the library's skip or run leaves.
    fn read(&self, op: u32, answer_size: usize) -> Reply {
        let (numbers, format, input) = (self.numbers(), self.format(), self.input());
        Reply::of(answer_size, self.turn.place(), |answer| match op {
            op::SKIP => sys::skip(numbers, &format, input, self.case.a, answer),
            op::RUN => sys::run(numbers, &format, input, answer),
            other => panic!("neither skip nor run: {other}"),
        })
    }

    /// No call has written to what it was to read.
    fn stayed(&self) -> bool {
        self.slices.iter().zip(self.case.strings()).all(|(slice, string)| **slice == **string)
    }
}

/// What an answer slice of so many bytes holds before a call.
pub(crate) fn unanswered(bytes: usize) -> Vec<u8> {
    (0..bytes).map(filling).collect()
}

impl Reply {
    /// A call into a filled slice of so many bytes.
    pub(crate) fn of(answer_size: usize, place: Place, call: impl FnOnce(&mut [u8]) -> u32) -> Self {
        let mut answer = Held::new(&unanswered(answer_size), place);
        let returned = call(&mut answer);
        Self { returned, answer: answer.to_vec(), lent: None }
    }

    /// What the plain reading would have left.
    pub fn expected(report: &Report, answer_size: usize) -> Self {
        let mut answer = unanswered(answer_size);
        let returned = report.write_to(&mut answer);
        Self { returned, answer, lent: None }
    }

    /// The eleven numbers in words, or what there is instead; and what was lent.
    pub fn in_words(&self) -> String {
        let mut words = self.answer_in_words();
        if let Some([records, payload]) = &self.lent {
            for (name, slice) in [("value records", records), ("payload", payload)] {
                let shown = &slice[..slice.len().min(MOST_SHOWN)];
                words.push_str(&format!("\n            {name}, {} bytes: {shown:02x?}", slice.len()));
            }
        }
        words
    }

    fn answer_in_words(&self) -> String {
        let numbers: Vec<u64> = self
            .answer
            .chunks_exact(8)
            .take(11)
            .map(|field| u64::from_le_bytes(field.try_into().expect("eight bytes")))
            .collect();
        let [what, number, place, x, y, z, rows, bytes, table, records, payload] = numbers[..] else {
            return format!("returned {}, answer slice {:02x?}", self.returned, self.answer);
        };
        let changed = (88..self.answer.len()).filter(|index| self.answer[*index] != filling(*index));
        let tail = match changed.count() {
            0 => "as they were".to_owned(),
            _ => format!("{:02x?}", &self.answer[88..]),
        };
        format!(
            "returned {}: what {what}, refusal {number} at {place} ({x} {y} {z}), rows {rows}, bytes {bytes}, \
             table {table}, records {records}, payload {payload}; bytes after them {tail}",
            self.returned
        )
    }
}

/// A case with the length of its answer slice, the number by which its slices are placed and, of a decoding one,
/// the room in what it is lent.
#[derive(Debug, Clone)]
pub struct Asked {
    pub case: Case,
    pub answer_size: usize,
    number: u64,
    room: Room,
}

impl Asked {
    fn new(case: Case, number: u64, room: Room) -> Self {
        let answer_size = ANSWER_SIZES[number as usize % ANSWER_SIZES.len()];
        Self { case: room.lend(case), answer_size, number, room }
    }

    /// The same with another case.
    pub fn about(&self, case: Case) -> Self {
        Self { case: self.room.lend(case), ..self.clone() }
    }

    /// The same with too short an answer slice, if it is this case's turn.
    fn short(&self) -> Option<Self> {
        let turn = (self.number / SHORT_EACH) as usize % SHORT_SIZES.len();
        (self.number % SHORT_EACH == 0).then(|| Self { answer_size: SHORT_SIZES[turn], ..self.clone() })
    }
}

/// What both readings say of a case, and what the library did.
pub struct Verdict {
    pub expected: Expected,
    /// The library's skip answers as its decoding did.
    pub as_skipped: bool,
    /// The library's check of the format answers as the plain reading's.
    pub as_checked: bool,
    /// What it was asked of a decoded row's values; none where it answers otherwise than the plain reading.
    pub queried: Option<Queried>,
    /// No call has written to a slice that it was to read.
    pub stayed: bool,
    pub wanted: Reply,
    pub got: Reply,
}

impl Verdict {
    pub fn of(asked: &Asked) -> Self {
        let turn = Turn::new(asked.number);
        let held = asked.case.strings().map(|string| turn.hold(string));
        let given = Given { case: &asked.case, slices: held.each_ref().map(|slice| &**slice), turn };
        trap::while_asked(&|| describe(&asked.case), || match asked.case.op {
            op::DECODE => decoding::verdict(asked, &given),
            _ => Self::of_reading(asked, &given),
        })
    }

    fn of_reading(asked: &Asked, given: &Given) -> Self {
        let Asked { case, answer_size, .. } = asked;
        let report = plain_report(case);
        let expected = Expected::with(case, line(case.op, &report));
        let wanted = Reply::expected(&report, *answer_size);
        let got = given.read(case.op, *answer_size);
        let as_checked = checks::format_is_right(given, *answer_size);
        let queried = Some(Queried::default());
        Self { expected, as_skipped: true, as_checked, queried, stayed: given.stayed(), wanted, got }
    }

    pub fn is_good(&self) -> bool {
        let also = self.as_skipped && self.as_checked && self.queried.is_some() && self.stayed;
        self.expected.is_one() && also && self.wanted == self.got
    }
}

/// What every run has to meet: each refusal of reading, each context of a cut, and blobs under two limits.
fn unmet(call: &str, tally: &Tally, more: &[u64]) -> Vec<String> {
    let numbers: BTreeSet<u64> = (0..=17).filter(|number| ![9, 15, 16].contains(number)).collect();
    let numbers = numbers
        .iter()
        .chain(&[NAME_NOT_UTF8])
        .chain(more)
        .filter(|number| !tally.numbers.contains_key(number));
    let contexts = (1..=17).filter(|context| !tally.contexts.contains_key(context));
    numbers
        .map(|number| format!("{call} answer {number}"))
        .chain(contexts.map(|context| format!("{call} context {context}")))
        .chain(tally.limits.unmet().into_iter().map(|words| format!("{call} {words}")))
        .collect()
}

/// Why a run stopped short.
pub enum Stop {
    Difference(Box<Asked>),
    /// A name that is taken for another wire type than the plain reading takes it for.
    Misread(Vec<u8>),
    /// All answers were right, but these were never among them.
    Unmet(Vec<String>),
}

/// The cases of skip and run, and those of decode that were made of them.
#[derive(Default)]
pub struct Tallies {
    pub reading: Tally,
    pub decoding: Tally,
    pub queried: Queried,
    /// Cases that came once more, with too short an answer slice.
    pub short_answers: u64,
    pub slices: Slices,
}

impl fmt::Display for Tallies {
    fn fmt(&self, out: &mut fmt::Formatter<'_>) -> fmt::Result {
        let Tallies { reading, decoding, queried, short_answers, slices } = self;
        write!(out, "skip and run: {reading} decode: {decoding} {queried} ")?;
        write!(out, "{short_answers} cases once more with a short answer slice, {slices}")
    }
}

#[derive(Default)]
struct Run {
    tallies: Tallies,
    /// The first case that differs; nothing is asked after it.
    found: Option<Asked>,
}

impl Run {
    /// The case itself, and the row that it skips, or one of those that it runs over, decoded.
    fn take(&mut self, kind: Kind, case: Case) {
        let decodings = rows::decoding::calls(self.tallies.reading.cases, &case);
        self.ask(kind, case, Room::EXACT);
        decodings.into_iter().for_each(|(case, room)| self.ask(kind, case, room));
    }

    fn ask(&mut self, kind: Kind, case: Case, room: Room) {
        if self.found.is_some() {
            return;
        }
        let tally = match case.op {
            op::DECODE => &mut self.tallies.decoding,
            _ => &mut self.tallies.reading,
        };
        let asked = Asked::new(case, tally.cases, room);
        let verdict = Verdict::of(&asked);
        if !verdict.is_good() {
            self.found = Some(asked);
            return;
        }
        tally.add(kind, &asked.case, &verdict.expected);
        verdict.queried.iter().for_each(|more| self.tallies.queried.add(more));
        if let Some(short) = asked.short() {
            self.tallies.short_answers += 1;
            self.found = (!Verdict::of(&short).is_good()).then_some(short);
        }
    }
}

/// All fixed cases, then random ones up to `count` in all that have one limit for blobs, those with two not counted;
/// and at least as many of decode.
pub fn run(seed: u64, count: u64) -> Result<Tallies, Stop> {
    let sizes = || ANSWER_SIZES.iter().chain(&SHORT_SIZES);
    if let Some(name) = sizes().find_map(|size| checks::misread_name(*size)) {
        return Err(Stop::Misread(name));
    }
    let mut run = Run::default();
    rows::fixed(&mut |kind, case| run.take(kind, case));
    rows::registries::fixed(&mut |kind, case| run.take(kind, case));
    let mut number = run.tallies.reading.cases;
    while run.found.is_none() && run.tallies.reading.limits.one < count {
        let (kind, case) = rows::random(&mut Rng::for_case(seed, number));
        run.take(kind, case);
        number += 1;
    }
    if let Some(asked) = run.found {
        return Err(Stop::Difference(Box::new(asked)));
    }
    run.tallies.slices = fence::counted();
    let mut missing = unmet("skip and run", &run.tallies.reading, &[]);
    missing.extend(unmet("decode", &run.tallies.decoding, &[NO_NODE_ROOM, NO_PAYLOAD_ROOM]));
    if run.tallies.slices.odd <= run.tallies.slices.all / 2 {
        missing.push("odd addresses for most slices".to_owned());
    }
    if missing.is_empty() {
        Ok(run.tallies)
    } else {
        Err(Stop::Unmet(missing))
    }
}
