//! How much room a decoding call is lent, told by what the row needs, so that it stays what it is when a
//! case is made smaller.

use std::cmp::Ordering;

use plain::report::what;

use crate::case::{op, Case};
use crate::judge::plain_report;

/// Room for what is needed, or so many bytes more or less, or none, or half.
#[derive(Debug, Clone, Copy, PartialEq, Eq)]
pub enum Slack {
    More(usize),
    Less(usize),
    Half,
    Nothing,
}

use Slack::{Half, Less, More, Nothing};

impl Slack {
    pub(crate) fn of(self, need: usize) -> usize {
        match self {
            More(bytes) => need + bytes,
            Less(bytes) => need.saturating_sub(bytes),
            Half => need / 2,
            Nothing => 0,
        }
    }
}

/// For the records: in bytes, a record having sixteen.
const RECORDS: [Slack; 12] = [
    More(0),
    More(1),
    More(15),
    More(16),
    More(17),
    More(1000),
    Less(1),
    Less(15),
    Less(16),
    Less(17),
    Half,
    Nothing,
];
const PAYLOAD: [Slack; 7] = [More(0), More(1), More(16), More(1000), Less(1), Half, Nothing];

/// The first so many of each are room enough.
const ENOUGH_RECORDS: usize = 6;
const ENOUGH_PAYLOAD: usize = 4;

/// Both slices of a decoding call.
#[derive(Debug, Clone, Copy, PartialEq, Eq)]
pub struct Room {
    pub records: Slack,
    pub payload: Slack,
}

impl Room {
    /// Just what is needed.
    pub const EXACT: Room = Room { records: More(0), payload: More(0) };

    /// A room that is enough, by any number.
    pub fn enough(number: u64) -> Self {
        Self::among(&RECORDS[..ENOUGH_RECORDS], &PAYLOAD[..ENOUGH_PAYLOAD], number)
    }

    /// Any room, by any number; each of them comes up as often as the others.
    pub fn any(number: u64) -> Self {
        Self::among(&RECORDS, &PAYLOAD, number)
    }

    fn among(records: &[Slack], payload: &[Slack], number: u64) -> Self {
        let number = number as usize;
        Self {
            records: records[number % records.len()],
            payload: payload[number / records.len() % payload.len()],
        }
    }

    /// A decoding case with this room; any other case is handed back.
    pub fn lend(&self, case: Case) -> Case {
        if case.op != op::DECODE {
            return case;
        }
        let [records, payload] = need(&case).unwrap_or(WITHOUT_A_ROW);
        case.with_lent([self.records.of(records), self.payload.of(payload)])
    }
}

/// Where there is no row nothing is needed; something is lent all the same, and nothing is to be written.
const WITHOUT_A_ROW: [usize; 2] = [48, 5];

/// How many bytes of each slice the row of a decoding case needs; none where it has no row.
pub fn need(case: &Case) -> Option<[usize; 2]> {
    let report = plain_report(case);
    (report.what == what::ROW).then_some([16 * report.records as usize, report.payload as usize])
}

/// What a decoding case is lent, beside what it needs.
pub fn in_words(case: &Case) -> String {
    let [records, payload] = case.lent();
    let (records, payload) = match need(case) {
        None => (format!("{records} bytes"), format!("{payload} bytes")),
        Some(need) => (beside(records, need[0]), beside(payload, need[1])),
    };
    format!("record slice: {records}, payload slice: {payload}")
}

fn beside(lent: usize, need: usize) -> String {
    match lent.cmp(&need) {
        Ordering::Equal => "exactly enough".to_owned(),
        Ordering::Greater => format!("{} bytes more than enough", lent - need),
        Ordering::Less => format!("{} bytes less than enough", need - lent),
    }
}

#[cfg(test)]
mod tests {
    use super::*;
    use std::collections::BTreeSet;

    #[test]
    fn rooms_are_on_both_sides_of_the_need() {
        let lent = |room: Room| [room.records.of(48), room.payload.of(5)];
        let all: BTreeSet<[usize; 2]> = (0..84).map(|number| lent(Room::any(number))).collect();
        assert_eq!(all.len(), 84);
        for records in [0, 24, 31, 32, 33, 47, 48, 49, 63, 64, 65, 1048] {
            for payload in [0, 2, 4, 5, 6, 21, 1005] {
                assert!(all.contains(&[records, payload]), "{records} {payload}");
            }
        }
        for number in 0..24 {
            let [records, payload] = lent(Room::enough(number));
            assert!(records >= 48 && payload >= 5);
        }
        assert_eq!(lent(Room::EXACT), [48, 5]);
    }
}
