//! Decoding calls, made of the cases of skip and run.

use super::edges;
use crate::case::{op, Case};
use crate::generate::Emit;
use crate::judge::plain_report;
use crate::room::{need, Room, Slack};

/// Where the row stands that a case skips; of a run, the first row or what it stops at.
fn position(number: u64, case: &Case) -> u64 {
    match case.op {
        op::SKIP => case.a,
        _ if number % 4 < 2 => 0,
        _ => plain_report(case).bytes,
    }
}

/// The call with any room and, where the row is accepted, before it one with room enough; and where that row
/// stands elsewhere, the row at the start with room enough. `number` is the case's own, by which rows and rooms
/// come round.
pub fn calls(number: u64, case: &Case) -> Vec<(Case, Room)> {
    let at = |a: u64| Case { op: op::DECODE, a, ..case.clone() };
    let decoding = at(position(number, case));
    // A run's numbers and those of its rooms are not to go in step.
    let turn = number / 2 + number / 168;
    let roomy = |decoding: &Case| need(decoding).map(|_| (decoding.clone(), Room::enough(turn)));
    let first = if decoding.a == 0 { None } else { roomy(&at(0)) };
    first.into_iter().chain(roomy(&decoding)).chain([(decoding, Room::any(turn))]).collect()
}

/// Just enough, and one byte less or some bytes more of either slice.
const FEW_ROOMS: [Room; 4] = [
    Room::EXACT,
    Room { records: Slack::Less(1), payload: Slack::More(0) },
    Room { records: Slack::More(15), payload: Slack::Less(1) },
    Room { records: Slack::More(15), payload: Slack::More(1) },
];

/// The rows that a sample has to have, in two rooms each. Those of a format with
/// more than `longest` bytes have value tables as long, and are left out.
pub fn few(longest: usize, emit: &mut Emit) {
    let mut rows = 0;
    edges::few(&mut |kind, case| {
        if case.op != op::SKIP {
            return;
        }
        let bytes = case.bytes();
        let decoding = Case { op: op::DECODE, ..case };
        let rooms: Vec<Room> = match need(&decoding) {
            Some(_) if bytes > longest => vec![],
            Some(_) => {
                rows += 1;
                vec![FEW_ROOMS[0], FEW_ROOMS[1 + rows % 3]]
            }
            // Without a row one room is as good as another.
            None => vec![FEW_ROOMS[0]],
        };
        rooms.iter().for_each(|room| emit(kind, room.lend(decoding.clone())));
    });
}
