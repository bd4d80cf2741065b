//! The index calls, each beside the call that would do without it: building and checking beside the run over the
//! same stream, row 40,000 by its record beside skipping the rows before it, and rows anywhere beside decode at
//! positions that are known.

use std::hint::black_box;

use diff::case::Case;
use diff::indexing::calls::Streamed;
use diff::original::indexing::rows_of;
use diff::rng::Rng;
use plain::indexing::IndexRecord;
use plain::settings::Settings;
use skiff::sys;

use crate::same::Room;
use crate::timing::nanoseconds;

/// A stream with its index as the original's rows have it, and the positions that a host would keep instead.
pub struct Indexed {
    case: Case,
    rows: Vec<IndexRecord>,
    whole: Vec<u8>,
    /// By themselves, so that looking one up touches no more memory than it has to.
    positions: Vec<u64>,
    room: Room,
}

/// Where an answer has the bytes of a row.
const ROW_BYTES: usize = 7 * 8;

impl Indexed {
    pub fn new(case: Case, room: Room) -> Self {
        let case = case.with_settings(Settings::default());
        let rows = rows_of(&case);
        let whole = rows.iter().flat_map(IndexRecord::in_bytes).collect();
        let positions = rows.iter().map(|row| row.offset).collect();
        Self { case, rows, whole, positions, room }
    }

    fn streamed(&self) -> Streamed<'_> {
        let slices = self.case.strings().map(Vec::as_slice);
        Streamed { settings: self.case.settings(), slices }
    }

    pub fn run(&self) -> f64 {
        let streamed = self.streamed();
        let mut answer = [0; sys::ANSWER_SIZE];
        nanoseconds(|| {
            let refused =
                sys::run(streamed.numbers(), &streamed.format(), black_box(streamed.input()), &mut answer);
            assert_eq!(refused, 0, "good rows");
        })
    }

    /// Into a slice that has been written before, as the next delivery's would be.
    pub fn build(&self) -> f64 {
        let streamed = self.streamed();
        let mut answer = [0; sys::ANSWER_SIZE];
        let mut index = vec![0xA5; self.whole.len()];
        let time = nanoseconds(|| {
            assert_eq!(streamed.build_index(black_box(&mut index), &mut answer), 0, "good rows");
        });
        assert!(index == self.whole, "the original's rows");
        time
    }

    pub fn check(&self) -> f64 {
        let streamed = self.streamed();
        let mut answer = [0; sys::ANSWER_SIZE];
        nanoseconds(|| {
            assert_eq!(
                streamed.check_index(black_box(&self.whole), &mut answer),
                0,
                "the index of these rows"
            );
        })
    }

    /// Row n by its record.
    pub fn row_by_index(&self, n: usize) -> f64 {
        let streamed = self.streamed();
        let (mut records, mut payload) = self.room.slices();
        let mut answer = [0; sys::ANSWER_SIZE];
        let time = nanoseconds(|| {
            let lent = [&mut records[..], &mut payload];
            let refused = streamed.decode_indexed(black_box(&self.whole), n as u64, lent, &mut answer);
            assert_eq!(refused, 0, "a good row");
        });
        assert_eq!(answer[ROW_BYTES..ROW_BYTES + 4], (self.rows[n].length as u32).to_le_bytes());
        time
    }

    /// Row n as it is found without an index: those before it are skipped.
    pub fn row_by_skipping(&self, n: usize) -> f64 {
        let streamed = self.streamed();
        let (numbers, format, input) = (streamed.numbers(), streamed.format(), streamed.input());
        let (mut records, mut payload) = self.room.slices();
        let mut answer = [0; sys::ANSWER_SIZE];
        let mut at = 0;
        let time = nanoseconds(|| {
            for _ in 0..n {
                let refused = sys::skip(numbers, black_box(&format), black_box(input), at, &mut answer);
                assert_eq!(refused, 0, "a good row");
                at += u64::from_le_bytes(*answer[ROW_BYTES..].first_chunk().expect("a word"));
            }
            let refused =
                sys::decode(numbers, &format, input, at, &mut records, &mut payload, black_box(&mut answer));
            assert_eq!(refused, 0, "a good row");
        });
        assert_eq!(at, self.rows[n].offset);
        time
    }

    /// So many row numbers in no order.
    pub fn anywhere(&self, count: usize) -> Vec<u32> {
        let rng = &mut Rng::new(40_000);
        (0..count).map(|_| rng.below(self.rows.len()) as u32).collect()
    }

    /// So many row numbers one after the other, from the first again after the last.
    pub fn in_order(&self, count: usize) -> Vec<u32> {
        (0..count).map(|row| (row % self.rows.len()) as u32).collect()
    }

    /// Rows of these numbers, by their records.
    pub fn rows_by_index(&self, numbers: &[u32]) -> f64 {
        let streamed = self.streamed();
        let (mut records, mut payload) = self.room.slices();
        let mut answer = [0; sys::ANSWER_SIZE];
        nanoseconds(|| {
            for n in numbers {
                let lent = [&mut records[..], &mut payload];
                let refused = streamed.decode_indexed(&self.whole, u64::from(*n), lent, &mut answer);
                assert_eq!(refused, 0, "a good row");
            }
        })
    }

    /// The same rows by decode, at positions that are known.
    pub fn rows_by_position(&self, numbers: &[u32]) -> f64 {
        let streamed = self.streamed();
        let (settings, format, input) = (streamed.numbers(), streamed.format(), streamed.input());
        let (mut records, mut payload) = self.room.slices();
        let mut answer = [0; sys::ANSWER_SIZE];
        nanoseconds(|| {
            for n in numbers {
                let at = self.positions[*n as usize];
                let refused =
                    sys::decode(settings, &format, input, at, &mut records, &mut payload, &mut answer);
                assert_eq!(refused, 0, "a good row");
            }
        })
    }
}
