//! A sample of small cases with their answers, to be replayed where the original is not at hand. It has three
//! parts, a program each.

mod wanted;
mod wanted_indexes;
mod wanted_limits;
mod wanted_names;
mod wanted_writes;

use std::collections::BTreeMap;

use crate::case::{op, Case, MOST_INPUT};
use crate::compare::{Expected, Tally};
use crate::generate::{self, edges, indexes, named_edges, rows, words, writes, Kind, NAMES, TWO_BLOB_LIMITS};
use crate::indexing::IndexCase;
use crate::judge::plain_answer;
use crate::rng::Rng;
use crate::room::Room;
use crate::writing::{run, WriteCase};
use plain::answer::number::{BLOB_TOO_LARGE, SETTING};
use plain::decoding::ValueTable;
use wanted::{answered, Answered, Wanted, IS_ROW};
use wanted_writes::NO_COLUMN;

/// What is recorded apart: the schema side with the reading of rows, their writing, and their index.
#[derive(Debug, Clone, Copy, PartialEq, Eq)]
pub enum Part {
    Reading,
    Writing,
    Indexing,
}

impl Part {
    /// By the program that replays it.
    pub fn of(program: &str) -> Option<Self> {
        match program {
            "replay" => Some(Self::Reading),
            "replay_write" => Some(Self::Writing),
            "replay_index" => Some(Self::Indexing),
            _ => None,
        }
    }
}

/// No case that is chosen by chance has more bytes than this.
const LONGEST_SCHEMA: usize = 160;
const LONGEST_ROWS: usize = 128;
const LONGEST_WRITING: usize = 320;
const LONGEST_INDEXING: usize = 240;

/// So many are drawn by chance.
const RANDOM: u64 = 200_000;
const RANDOM_WRITING: u64 = 40_000;
const RANDOM_STREAMS: u64 = 40_000;

/// No decoding call that is chosen by chance is lent more bytes.
const MOST_LENT: usize = 128;

/// Both files' contents.
pub struct Recording {
    pub cases: Vec<u8>,
    pub answers: String,
    pub tally: Tally,
}

/// So many cases are kept of each kind and answer. All of a part together have to fit into the steps of one
/// run on the interpreter.
fn most_kept(answered: Answered, kind: Kind) -> usize {
    match (answered, kind) {
        // What has nothing to do with the limits is met in other kinds.
        ((_, number, _), TWO_BLOB_LIMITS) if ![0, SETTING, BLOB_TOO_LARGE].contains(&number) => 0,
        ((op::ENCODE, 0, column), TWO_BLOB_LIMITS) if ![13, 14, NO_COLUMN].contains(&column) => 0,
        ((op::DECODE, 0, IS_ROW), _) => 2,
        ((op::SKIP | op::RUN | op::DECODE, _, _), _) => 1,
        ((op::ENCODE, 0, 12), "scalars") => 12,
        ((op::ENCODE, 0, _), "scalars" | "limits") => 3,
        ((op::ENCODE, _, _), "odd settings") => 8,
        ((op::ENCODE, 14, _), "limits") => 4,
        ((op::ENCODE, 17, _), "tags") => 3,
        ((op::ENCODE, 16 | 21, _), _) => 3,
        ((op::ENCODE, _, _), _) => 1,
        ((op::CHECK_TABLE, _, _), _) => 2,
        ((op::BUILD_INDEX.., _, _), _) => 1,
        _ => 1,
    }
}

/// A run and a decoding call refuse a row as skip does, for which all kinds are told apart; the index calls, too, refuse
/// a format or a row as they do.
fn kind_told((op, number, _): Answered, kind: Kind) -> Kind {
    match op {
        op::RUN | op::DECODE if number > 0 => "any",
        op::BUILD_INDEX.. if (2..=17).contains(&number) => "any",
        _ => kind,
    }
}

#[derive(Default)]
struct Sample {
    kept: BTreeMap<(Answered, Kind), (usize, Vec<(Kind, Case)>)>,
    offered: u64,
}

impl Sample {
    /// Keeps a fair choice of all cases that come for one place. What there is to show of names is chosen by hand.
    fn offer(&mut self, rng: &mut Rng, kind: Kind, case: Case) {
        if kind == NAMES {
            return;
        }
        let answered = answered(&case, &plain_answer(&case));
        let most = most_kept(answered, kind);
        let (met, kept) = self.kept.entry((answered, kind_told(answered, kind))).or_default();
        *met += 1;
        let place = rng.below(*met);
        if kept.len() < most {
            kept.push((kind, case));
        } else if place < most {
            kept[place] = (kind, case);
        }
    }

    /// A case of skip or run, and what is decoded of it.
    fn offer_reading(&mut self, rng: &mut Rng, kind: Kind, case: Case) {
        self.offered += 1;
        for (decoding, room) in rows::decoding::calls(self.offered, &case) {
            let decoding = room.lend(decoding);
            if decoding.lent().iter().sum::<usize>() <= MOST_LENT {
                self.offer(rng, kind, decoding);
            }
        }
        self.offer(rng, kind, case);
    }

    /// The calls that are made of a writing case, and the check of its value table.
    fn offer_writing(&mut self, rng: &mut Rng, kind: Kind, case: WriteCase) {
        self.offer(rng, kind, table_check(case.value.clone()));
        if case.schema.a.max(case.schema.b) > u64::from(u32::MAX) {
            return;
        }
        for call in run::calls(case, self.offered) {
            self.offered += 1;
            self.offer(rng, kind, call.asked());
        }
    }

    fn offer_indexing(&mut self, rng: &mut Rng, kind: Kind, case: IndexCase) {
        if case.bytes() <= LONGEST_INDEXING && case.lent.iter().sum::<usize>() <= MOST_LENT {
            self.offer(rng, kind, case.asked());
        }
    }

    fn chosen(self) -> Vec<(Kind, Case)> {
        self.kept.into_values().flat_map(|(_, kept)| kept).collect()
    }
}

fn table_check(value: ValueTable) -> Case {
    let ValueTable { records: references, payload: registry } = value;
    Case { op: op::CHECK_TABLE, references, registry, ..Case::default() }
}

pub fn record(part: Part, seed: u64) -> Recording {
    let chosen = match part {
        Part::Reading => [schema(seed), reading(seed)].concat(),
        Part::Writing => writing(seed),
        Part::Indexing => indexing(seed),
    };
    write(part, &chosen)
}

fn schema(seed: u64) -> Vec<(Kind, Case)> {
    let (mut rng, mut sample) = (Rng::new(seed), Sample::default());
    let mut take = |kind, case: Case| {
        if case.bytes() <= LONGEST_SCHEMA {
            sample.offer(&mut rng, kind, case);
        }
    };
    generate::fixed(&mut take);
    for number in 0..RANDOM {
        let (kind, case) = generate::random(&mut Rng::for_case(seed, number));
        take(kind, case);
    }
    let mut chosen = sample.chosen();
    words::few(&mut |kind, case| chosen.push((kind, case)));
    edges::few(&mut |kind, case| chosen.push((kind, case)));
    named_edges::few(&mut |kind, case| chosen.push((kind, case)));
    chosen
}

fn reading(seed: u64) -> Vec<(Kind, Case)> {
    let (mut rng, mut sample) = (Rng::new(seed), Sample::default());
    let mut take = |kind, case: Case| {
        if case.bytes() <= LONGEST_ROWS {
            sample.offer_reading(&mut rng, kind, case);
        }
    };
    rows::fixed(&mut take);
    for number in 0..RANDOM {
        let (kind, case) = rows::random(&mut Rng::for_case(seed, number));
        take(kind, case);
    }
    let mut chosen = sample.chosen();
    rows::edges::few(&mut |kind, case| chosen.push((kind, case)));
    rows::decoding::few(LONGEST_ROWS, &mut |kind, case| chosen.push((kind, case)));
    named_edges::few_rows(&mut |kind, case| {
        if case.op == op::SKIP {
            chosen.push((kind, Room::EXACT.lend(Case { op: op::DECODE, ..case.clone() })));
        }
        chosen.push((kind, case));
    });
    chosen
}

fn writing(seed: u64) -> Vec<(Kind, Case)> {
    let (mut rng, mut sample) = (Rng::new(seed), Sample::default());
    let mut take = |kind, case: WriteCase| {
        if case.bytes() <= LONGEST_WRITING {
            sample.offer_writing(&mut rng, kind, case);
        }
    };
    writes::edges::fixed(&mut take);
    for number in 0..RANDOM_WRITING {
        let (kind, case) = writes::random(&mut Rng::for_case(seed, number));
        take(kind, case);
    }
    let mut chosen = sample.chosen();
    writes::edges::few(&mut |kind, case| chosen.push((kind, case.asked())));
    writes::tables::few(&mut |value| chosen.push(("one fault", table_check(value))));
    chosen
}

fn indexing(seed: u64) -> Vec<(Kind, Case)> {
    let (mut rng, mut sample) = (Rng::new(seed), Sample::default());
    for number in 0..RANDOM_STREAMS {
        for (kind, case) in indexes::random(&mut Rng::for_case(seed, number)) {
            sample.offer_indexing(&mut rng, kind, case);
        }
    }
    let mut chosen = sample.chosen();
    indexes::edges::few(&mut |kind, case| chosen.push((kind, case.asked())));
    chosen
}

fn write(part: Part, chosen: &[(Kind, Case)]) -> Recording {
    let mut wanted = Wanted::of(part);
    let mut recording = Recording { cases: Vec::new(), answers: String::new(), tally: Tally::default() };
    for (kind, case) in chosen {
        assert!(case.input.len() <= MOST_INPUT, "the program has no room for this input");
        let expected = Expected::of(case);
        assert!(
            expected.is_one(),
            "the plain reading and the original differ:\n{}",
            crate::show::describe(case)
        );
        wanted.meet(case, &expected.plain);
        recording.tally.add(kind, case, &expected);
        case.write_to(&mut recording.cases);
        recording.answers.push_str(&format!("{}\n", expected.plain));
    }
    wanted.assert_met();
    recording
}
