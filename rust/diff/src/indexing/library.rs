//! The library's index calls, linked into this process. Every slice that a call is given stands between unreadable
//! pages: against one of them, or at an odd address.

use plain::answer::number::NO_INDEX_ROOM;
use plain::report::Report;
use plain::settings::Settings;
use skiff::sys;

use super::calls::Streamed;
use super::run::Tally;
use super::{describe, filled, Call, IndexCase, Left};
use crate::fence::Turn;
use crate::trap;

/// What a call left: its number, its whole answer slice, the index slice, and what row n was lent besides.
#[derive(Debug, Clone, PartialEq, Eq)]
pub(super) struct Reply {
    pub returned: u32,
    pub answer: Vec<u8>,
    pub index: Vec<u8>,
    pub lent: [Vec<u8>; 2],
}

/// What an answer slice of so many bytes holds before a call.
fn unanswered(bytes: usize) -> Vec<u8> {
    filled(3, bytes)
}

impl Reply {
    /// What the plain reading would have left. Without room for its answer a call leaves all slices as they are.
    pub fn expected(case: &IndexCase, left: &Left, lent: &[Vec<u8>; 2], answer_size: usize) -> Self {
        let mut answer = unanswered(answer_size);
        let returned = left.report.write_to(&mut answer);
        let (index, lent) = if answer_size < sys::ANSWER_SIZE {
            (case.index.clone(), lent.clone())
        } else {
            (left.index.clone(), left.lent.clone())
        };
        Self { returned, answer, index, lent }
    }

    fn in_words(&self) -> String {
        let numbers: Vec<u64> = self
            .answer
            .chunks_exact(8)
            .take(11)
            .map(|field| u64::from_le_bytes(field.try_into().expect("eight bytes")))
            .collect();
        let Self { returned, index, lent, .. } = self;
        let names = "what, number, place, carried (3), rows, bytes, table, records, payload";
        format!(
            "returned {returned}, {names}: {numbers:?}\n    answer slice {:02x?}\n    index {index:02x?}\n    lent {lent:02x?}",
            self.answer
        )
    }
}

/// What the library is given of a case, each slice by itself.
pub(super) struct Given<'a> {
    pub case: &'a IndexCase,
    pub streamed: Streamed<'a>,
    /// For the index and the slices that are written.
    pub turn: Turn,
}

impl<'a> Given<'a> {
    pub fn new(case: &'a IndexCase, slices: [&'a [u8]; 5], turn: Turn) -> Self {
        let settings: Settings = case.stream.settings();
        Self { case, streamed: Streamed { settings, slices }, turn }
    }

    /// What a call leaves in an answer slice of so many bytes.
    fn left(&self, answer_size: usize, call: impl FnOnce(&mut [u8]) -> u32) -> (u32, Vec<u8>) {
        let mut answer = self.turn.hold(&unanswered(answer_size));
        let returned = call(&mut answer);
        (returned, answer.to_vec())
    }

    /// The call that the case is.
    pub fn call(&self, answer_size: usize, lent: &[Vec<u8>; 2]) -> Reply {
        let IndexCase { call, index, number, .. } = self.case;
        let mut index = self.turn.hold(index);
        let [mut records, mut payload] = lent.each_ref().map(|slice| self.turn.hold(slice));
        let (returned, answer) = self.left(answer_size, |answer| match call {
            Call::Build => self.streamed.build_index(&mut index, answer),
            Call::Check => self.streamed.check_index(&index, answer),
            Call::Extend => self.streamed.extend_index(*number, &mut index, answer),
            Call::Row => self.streamed.decode_indexed(&index, *number, [&mut records, &mut payload], answer),
        });
        Reply { returned, answer, index: index.to_vec(), lent: [records.to_vec(), payload.to_vec()] }
    }

    /// The library's own call whose answer this one has to be, if there is one: build's is the run's unless there
    /// is no room; row n's is decode's at the record's offset, once the row was looked at and is the right one.
    fn beside(&self, answer_size: usize, lent: &[Vec<u8>; 2], report: &Report) -> Option<Reply> {
        let (numbers, format, input) =
            (self.streamed.numbers(), self.streamed.format(), self.streamed.input());
        let [mut records, mut payload] = lent.each_ref().map(|slice| self.turn.hold(slice));
        let (returned, answer) = match (self.case.call, report.number) {
            (Call::Build, number) if number != NO_INDEX_ROOM => {
                self.left(answer_size, |answer| sys::run(numbers, &format, input, answer))
            }
            (Call::Row, 0 | 11..=17 | 19 | 20) => {
                let at = self.case.offset()?;
                self.left(answer_size, |answer| {
                    sys::decode(numbers, &format, input, at, &mut records, &mut payload, answer)
                })
            }
            _ => return None,
        };
        Some(Reply { returned, answer, index: Vec::new(), lent: [records.to_vec(), payload.to_vec()] })
    }

    fn stayed(&self) -> Result<(), String> {
        let given = self.streamed.slices.iter().zip(self.case.stream.strings());
        let stayed = given.into_iter().all(|(held, slice)| **held == **slice);
        stayed.then_some(()).ok_or_else(|| "a call writes to a slice that it was to read".to_owned())
    }
}

pub(super) fn same(call: &str, got: &Reply, wanted: &Reply) -> Result<(), String> {
    if got == wanted {
        return Ok(());
    }
    Err(format!("{call}\n  library: {}\n  plain:   {}", got.in_words(), wanted.in_words()))
}

/// Answer slices that are long enough, and such as are not.
const ANSWER_SIZES: [usize; 7] = [88, 89, 200, 96, 88, 120, 88];
const SHORT_SIZES: [usize; 5] = [0, 87, 1, 80, 8];
const SHORT_EACH: u64 = 16;

/// What is wrong about the library's answer to a call, if anything is.
pub fn verdict(
    case: &IndexCase,
    number: u64,
    plain: &Left,
    lent: &[Vec<u8>; 2],
    tally: &mut Tally,
) -> Result<(), String> {
    trap::while_asked(&|| describe(case), || {
        let turn = Turn::new(number);
        let held = case.stream.strings().map(|string| turn.hold(string));
        let given = Given::new(case, held.each_ref().map(|slice| &**slice), turn);
        let size = ANSWER_SIZES[number as usize % ANSWER_SIZES.len()];
        let words = case.call.to_string();
        let got = given.call(size, lent);
        same(&words, &got, &Reply::expected(case, plain, lent, size))?;
        if let Some(beside) = given.beside(size, lent, &plain.report) {
            tally.beside += 1;
            let index = beside.index.clone();
            same(&format!("{words} beside run or decode"), &Reply { index, ..got }, &beside)?;
        }
        if number % SHORT_EACH == 0 {
            tally.short_answers += 1;
            let size = SHORT_SIZES[(number / SHORT_EACH) as usize % SHORT_SIZES.len()];
            same(&words, &given.call(size, lent), &Reply::expected(case, plain, lent, size))?;
        }
        given.stayed()
    })
}
