//! The text of an integer: the library's call against the plain reading, in every byte of text and answer. The original
//! has none.

pub mod huge;
pub mod run;
pub mod shrink;
pub mod threads;

use plain::integer::{text_of, write_text, MOST_BYTES};
use plain::report::{Report, REPORT_BYTES};
use skiff::sys::{self, INTEGER_TEXT_BYTES};

use crate::case::hex;
use crate::fence::Turn;
use crate::in_process::Reply;
use crate::indexing::filled;
use crate::room::Slack;
use crate::trap;

/// One call.
#[derive(Debug, Clone, PartialEq, Eq)]
pub struct IntegerCase {
    pub bytes: Vec<u8>,
    /// The text slice, beside what the text needs.
    pub room: Slack,
    /// Bytes of the answer slice.
    pub answer: usize,
}

impl IntegerCase {
    /// Bytes of the text slice. What has no text is lent as much as the longest needs.
    fn text_bytes(&self) -> usize {
        let has_text = (1..=MOST_BYTES).contains(&self.bytes.len());
        self.room.of(if has_text { text_of(&self.bytes).len() } else { INTEGER_TEXT_BYTES })
    }

    /// What the text slice holds before the call.
    fn lent(&self) -> Vec<u8> {
        filled(0, self.text_bytes())
    }
}

/// What a call leaves in its answer slice and in its text slice.
#[derive(Debug, PartialEq, Eq)]
struct Left {
    reply: Reply,
    text: Vec<u8>,
}

impl Left {
    fn in_words(&self) -> String {
        format!("{}\n    text slice \"{}\"", self.reply.in_words(), self.text.escape_ascii())
    }
}

/// The plain reading's report, and what it would leave. Without room for its answer a call leaves both slices.
fn plainly(case: &IntegerCase, lent: &[u8]) -> (Report, Left) {
    let mut text = lent.to_vec();
    let report = Report::of_text(&write_text(&case.bytes, &mut text));
    let text = if case.answer < REPORT_BYTES { lent.to_vec() } else { text };
    (report, Left { reply: Reply::expected(&report, case.answer), text })
}

/// What the library leaves in an answer slice of so many bytes and in a text slice.
fn by_the_library(bytes: &[u8], lent: &[u8], answer: usize, turn: &Turn) -> Left {
    let mut text = turn.hold(lent);
    let reply = Reply::of(answer, turn.place(), |answer| sys::integer_text(bytes, &mut text, answer));
    Left { reply, text: text.to_vec() }
}

fn same(got: &Left, wanted: &Left) -> Result<(), String> {
    if got == wanted {
        return Ok(());
    }
    Err(format!("library: {}\n  plain:   {}", got.in_words(), wanted.in_words()))
}

/// The report of a call that was answered rightly, or what is wrong. By the number the places of the slices are chosen.
fn verdict(case: &IntegerCase, number: u64) -> Result<Report, String> {
    trap::while_asked(&|| describe(case), || {
        let turn = Turn::new(number);
        let (held, lent) = (turn.hold(&case.bytes), case.lent());
        let (report, wanted) = plainly(case, &lent);
        same(&by_the_library(&held, &lent, case.answer, &turn), &wanted)?;
        if *held != *case.bytes {
            return Err("the call writes to the slice that it was to read".to_owned());
        }
        Ok(report)
    })
}

/// A case in words.
pub fn describe(case: &IntegerCase) -> String {
    format!(
        "  {} bytes, the lowest first: {}; a text slice of {} bytes, an answer slice of {}",
        case.bytes.len(),
        hex(&case.bytes),
        case.text_bytes(),
        case.answer
    )
}
