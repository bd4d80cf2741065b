//! The decoding call: what it leaves in its answer slice and in the two slices that it is lent.

use plain::answer::number::{NO_NODE_ROOM, NO_PAYLOAD_ROOM};
use plain::report::{what, REPORT_BYTES};
use plain::tables::RECORD_BYTES;
use skiff::sys;

use super::values::{self, Queried};
use super::{filling, Asked, Given, Reply, Verdict, LENT_FILLING};
use crate::case::op;
use crate::compare::Expected;
use crate::judge::{decoded_line, plain_decoded, plain_report};

/// What the slices hold before a call.
pub(super) fn filled(lent: [usize; 2]) -> [Vec<u8>; 2] {
    let filled = |which: usize| (LENT_FILLING[which]..).map(filling).take(lent[which]).collect();
    [0, 1].map(filled)
}

impl Given<'_> {
    pub(super) fn decode(&self, answer_size: usize, lent: &[Vec<u8>; 2]) -> Reply {
        let [mut records, mut payload] = lent.each_ref().map(|slice| self.turn.hold(slice));
        let (numbers, format, input) = (self.numbers(), self.format(), self.input());
        let reply = Reply::of(answer_size, self.turn.place(), |answer| {
            sys::decode(numbers, &format, input, self.case.a, &mut records, &mut payload, answer)
        });
        Reply { lent: Some([records.to_vec(), payload.to_vec()]), ..reply }
    }
}

/// What the plain reading, the original, the library and the library's own skip do with a decoding case.
pub(super) fn verdict(asked: &Asked, given: &Given) -> Verdict {
    let Asked { case, answer_size, .. } = asked;
    let before = filled(case.lent());
    let (report, after) = plain_decoded(case, before.clone());
    let got = given.decode(*answer_size, &before);
    // Without room for its answer a call leaves all slices as they are.
    let left = if *answer_size < REPORT_BYTES { before } else { after.clone() };
    let wanted = Reply { lent: Some(left), ..Reply::expected(&report, *answer_size) };

    let skipped = given.read(op::SKIP, *answer_size);
    // Skipping has the same answer, but where there is no room: then it accepts a row of just that need.
    let as_skipped = match report.number {
        NO_NODE_ROOM | NO_PAYLOAD_ROOM => skipped == Reply::expected(&plain_report(case), *answer_size),
        _ => skipped.returned == got.returned && skipped.answer == got.answer,
    };
    // Of what the library has written; a row, if there was room for its answer.
    let table = &after[0][..report.records as usize * RECORD_BYTES];
    let queried = if report.what != what::ROW {
        Some(Queried::default())
    } else if *answer_size < REPORT_BYTES {
        values::ask_in_vain(table, *answer_size, &given.turn)
    } else if got == wanted {
        values::ask(table, *answer_size, &given.turn)
    } else {
        Some(Queried::default())
    };
    let expected = Expected::with(case, decoded_line(&report, after));
    // Each case is asked as a skip or a run too, and its format checked there.
    Verdict { expected, as_skipped, as_checked: true, queried, stayed: given.stayed(), wanted, got }
}
