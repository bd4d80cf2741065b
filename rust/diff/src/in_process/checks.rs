//! The calls that check, beside those that read: a format, and the name of a wire type.

use plain::format::validate_format;
use plain::report::Report;
use plain::wire_type::{parse, NAMES};
use skiff::sys;

use super::{Given, Reply};
use crate::fence::Turn;
use crate::judge::tables;
use crate::trap;

/// Whether the library checks a case's format as the plain reading does.
pub(super) fn format_is_right(given: &Given, answer_size: usize) -> bool {
    let format = given.format();
    let report = Report::of_checked(&validate_format(&tables(given.case)));
    let got = Reply::of(answer_size, given.turn.place(), |answer| sys::check_format(&format, answer));
    got == Reply::expected(&report, answer_size)
}

/// The first name that the library takes for another wire type than the plain reading does: of each type the
/// name, all that it begins with, and the name with each byte exchanged for each other, with one more, or in
/// capitals.
pub fn misread_name(answer_size: usize) -> Option<Vec<u8>> {
    let exchanged = |name: &[u8]| -> Vec<Vec<u8>> {
        let with = |at: usize, byte: u8| [&name[..at], &[byte], &name[at + 1..]].concat();
        (0..name.len())
            .flat_map(|at| (0..=255).map(move |byte| (at, byte)))
            .map(|(at, byte)| with(at, byte))
            .collect()
    };
    let damaged = |name: &[u8]| -> Vec<Vec<u8>> {
        let begun = (0..=name.len()).map(|length| name[..length].to_vec());
        let longer = (0..=255).map(|byte| [name, &[byte]].concat());
        begun.chain(longer).chain(exchanged(name)).chain([name.to_ascii_uppercase()]).collect()
    };
    let mut names = NAMES.iter().flat_map(|name| damaged(name.as_bytes())).zip(0..);
    let misread = |(name, number): &(Vec<u8>, u64)| {
        let turn = Turn::new(*number);
        let held = turn.hold(name);
        let got = trap::while_asked(&|| format!("the name {name:?}"), || {
            Reply::of(answer_size, turn.place(), |answer| sys::parse(&held, answer))
        });
        got != Reply::expected(&Report::of_parsed(parse(name)), answer_size) || *held != **name
    };
    names.find(misread).map(|(name, _)| name)
}
