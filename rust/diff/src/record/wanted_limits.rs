//! What a recording has to have of two blob limits: in every call that takes settings, each of them by itself.

use plain::answer::number::{BLOB_TOO_LARGE, SETTING};
use plain::settings::{Settings, MOST};
use plain::wire_type::{STRING32, YSON32};

use super::wanted::Shown;
use crate::case::{Answer, Case};
use crate::judge::plain_answer;

/// A case seen from one type of blobs.
struct Seen<'a> {
    case: &'a Case,
    answer: &'a Answer,
    code: u8,
}

impl Seen<'_> {
    fn limit(&self) -> u64 {
        self.case.settings().blob_limit(self.code)
    }

    fn other(&self) -> u64 {
        self.case.settings().blob_limit(STRING32 + YSON32 - self.code)
    }

    /// The answer under another limit for this type.
    fn answer_under(&self, limit: u64) -> Answer {
        let now = self.case.settings();
        let settings = match self.code {
            STRING32 => Settings { max_string32_bytes: limit, ..now },
            _ => Settings { max_yson32_bytes: limit, ..now },
        };
        plain_answer(&self.case.clone().with_settings(settings))
    }

    /// Accepted, but refused for a blob of this type if its limit were one less.
    fn is_at_its_limit(&self) -> bool {
        let is_too_large = |less: u64| {
            let answer = self.answer_under(less);
            answer.number == BLOB_TOO_LARGE && answer.values[0] == u64::from(self.code)
        };
        self.answer.number == 0 && self.limit().checked_sub(1).is_some_and(is_too_large)
    }

    /// Refused for this limit alone.
    fn is_past_its_bound(&self) -> bool {
        self.answer.number == SETTING && self.limit() == MOST + 1 && self.answer_under(MOST).number != SETTING
    }

    fn occurs(&self) -> bool {
        self.case.records.chunks(16).any(|record| record[0] == self.code)
    }
}

type Test = fn(&Seen) -> bool;

const SHOWN: [(&str, Test); 3] = [
    ("a blob at its limit, where the other is 0", |seen| seen.is_at_its_limit() && seen.other() == 0),
    ("a blob one past its limit, where the other is higher", |seen| {
        let [code, length, limit] = seen.answer.values;
        seen.answer.number == BLOB_TOO_LARGE
            && code == u64::from(seen.code)
            && limit == seen.limit()
            && length == limit + 1
            && seen.other() > limit
    }),
    ("a limit past its bound, where no such blob can occur", |seen| {
        seen.is_past_its_bound() && !seen.occurs()
    }),
];

pub fn shown(operations: &[u32]) -> Vec<Shown> {
    let mut all: Vec<Shown> = Vec::new();
    for op in operations.iter().copied() {
        for code in [STRING32, YSON32] {
            for (words, test) in SHOWN {
                let is_shown =
                    move |case: &Case, answer: &Answer| case.op == op && test(&Seen { case, answer, code });
                all.push((format!("operation {op}, type {code}: {words}"), Box::new(is_shown)));
            }
        }
    }
    all
}
