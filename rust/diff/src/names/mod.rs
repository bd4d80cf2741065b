//! Names that are text or not: the library's judgement of one string against the plain reading and against the standard
//! library, and the turn of names in the check of a format and of an encoder's block.

pub mod formats;
pub mod huge;
pub mod shrink;
pub mod strings;
pub mod threads;

use std::str::from_utf8;

use plain::names::check_name;
use plain::report::Report;
use skiff::sys;

use crate::case::hex;
use crate::fence::Turn;
use crate::in_process::Reply;
use crate::trap;

/// One call about a string.
#[derive(Debug, Clone, PartialEq, Eq)]
pub struct NameCase {
    pub name: Vec<u8>,
    /// Bytes of the answer slice.
    pub answer: usize,
}

/// What the plain reading has the call write. It stands alone where the standard library says otherwise.
fn plainly(name: &[u8]) -> Result<Report, String> {
    let checked = check_name(name);
    if checked.is_ok() == from_utf8(name).is_ok() {
        Ok(Report::of_checked(&checked))
    } else {
        Err(format!("plain: {checked:?}; std: {:?}", from_utf8(name).map(drop)))
    }
}

fn same(got: &Reply, wanted: &Reply) -> Result<(), String> {
    if got == wanted {
        return Ok(());
    }
    Err(format!("library: {}\n  plain:   {}", got.in_words(), wanted.in_words()))
}

/// Whether a call was answered rightly, or what is wrong. By the number the places of the slices are chosen.
fn verdict(case: &NameCase, number: u64) -> Result<(), String> {
    trap::while_asked(&|| describe(case), || {
        let turn = Turn::new(number);
        let held = turn.hold(&case.name);
        let wanted = Reply::expected(&plainly(&case.name)?, case.answer);
        let got = Reply::of(case.answer, turn.place(), |answer| sys::check_name(&held, answer));
        same(&got, &wanted)?;
        if *held != *case.name {
            return Err("the call writes to the slice that it was to read".to_owned());
        }
        Ok(())
    })
}

/// More bytes of a name are not printed.
const MOST_SHOWN: usize = 200;

/// A case in words.
pub fn describe(case: &NameCase) -> String {
    let shown = &case.name[..case.name.len().min(MOST_SHOWN)];
    let text = if from_utf8(&case.name).is_ok() { "text" } else { "no text" };
    format!(
        "  a name of {} bytes: {}, \"{}\", {text} by the standard library; an answer slice of {} bytes",
        case.name.len(),
        hex(shown),
        shown.escape_ascii(),
        case.answer
    )
}
