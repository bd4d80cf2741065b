//! Both sides over the same bytes, in turn, the best of some runs each. What counts is this thread's own
//! processor time: other work on the machine may make a run wait, and that is not its cost.

use std::hint::black_box;

use diff::case::Case;
use diff::original;
use oracle::{Decoder, Format as Original};
use skiff::{sys, Format, Settings, Stop};

use crate::same::Room;

/// Best times in nanoseconds.
#[derive(Debug, Clone, Copy)]
pub struct Best {
    pub original: f64,
    pub library: f64,
}

#[repr(C)]
struct Timespec {
    seconds: i64,
    nanoseconds: i64,
}

/// CLOCK_THREAD_CPUTIME_ID of Linux.
const THREAD_PROCESSOR_TIME: i32 = 3;

extern "C" {
    fn clock_gettime(clock: i32, time: *mut Timespec) -> i32;
}

fn processor_time() -> f64 {
    let mut now = Timespec { seconds: 0, nanoseconds: 0 };
    // SAFETY: the C library, which std links, writes the two numbers of 64-bit Linux's timespec.
    let status = unsafe { clock_gettime(THREAD_PROCESSOR_TIME, &mut now) };
    assert_eq!(status, 0, "this machine has no clock for a thread's processor time");
    now.seconds as f64 * 1e9 + now.nanoseconds as f64
}

pub fn nanoseconds(work: impl FnOnce()) -> f64 {
    let start = processor_time();
    work();
    processor_time() - start
}

/// The best of `runs` of each, which take turns, so that a slow moment of the machine meets all.
pub fn best_of_each<const N: usize>(runs: u32, mut works: [&mut dyn FnMut() -> f64; N]) -> [f64; N] {
    let mut best = [f64::MAX; N];
    for _ in 0..runs {
        for (best, work) in best.iter_mut().zip(&mut works) {
            *best = best.min(work());
        }
    }
    best
}

pub fn best_of(runs: u32, mut original: impl FnMut() -> f64, mut library: impl FnMut() -> f64) -> Best {
    let [original, library] = best_of_each(runs, [&mut original, &mut library]);
    Best { original, library }
}

pub fn tables(case: &Case) -> Format<'_> {
    let Case { records, names, references, registry, .. } = case;
    Format { records, names, references, registry }
}

pub fn original(case: &Case) -> Original {
    original::format(case).expect("UTF-8 names").expect("a good format")
}

/// One run of the library. The format's check is part of the call.
pub fn run_library(case: &Case, rows: u64) -> f64 {
    let format = tables(case);
    nanoseconds(|| {
        let run = black_box(format).run(&Settings::default(), black_box(&case.input));
        assert_eq!((run.rows, run.bytes, run.stop), (rows, case.input.len() as u64, Stop::End));
    })
}

/// A driver over the original's `skip_row`, whose format is checked before the clock starts.
pub fn run_original(case: &Case, format: &Original, rows: u64) -> f64 {
    let mut decoder = Decoder::new(black_box(case.input.as_slice()), format.clone());
    nanoseconds(|| {
        let mut met = 0;
        while decoder.skip_row().expect("good rows").is_some() {
            met += 1;
        }
        assert_eq!(met, rows);
    })
}

/// One call of the library for each row, at the positions that the rows before give.
pub fn decode_library(case: &Case, room: Room, rows: u64) -> f64 {
    let format = tables(case);
    let (mut records, mut payload) = room.slices();
    let settings = Settings::default();
    nanoseconds(|| {
        let (mut met, mut at) = (0, 0);
        loop {
            let input = black_box(&case.input);
            let decoded = black_box(&format).next_row(&settings, input, at, &mut records, &mut payload);
            let Some(decoded) = decoded.expect("good rows") else { break };
            at += black_box(&decoded).extent().bytes;
            met += 1;
        }
        assert_eq!((met, at), (rows, case.input.len()));
    })
}

/// The C function itself, of whose answer only the kind and the row's length are read.
pub fn decode_bare(case: &Case, room: Room, rows: u64) -> f64 {
    let format = tables(case);
    let (mut records, mut payload) = room.slices();
    let settings = Settings::default();
    let mut answer = [0; sys::ANSWER_SIZE];
    nanoseconds(|| {
        let (mut met, mut at) = (0, 0);
        loop {
            let (numbers, input, to) = ((&settings).into(), black_box(&case.input), black_box(&mut answer));
            let refused = sys::decode(numbers, black_box(&format), input, at, &mut records, &mut payload, to);
            assert_eq!(refused, 0, "good rows");
            let number =
                |index: usize| u64::from_le_bytes(*answer[index * 8..].first_chunk().expect("a word"));
            if number(0) == 1 {
                break;
            }
            at += number(7);
            met += 1;
        }
        assert_eq!((met, at), (rows, case.input.len() as u64));
    })
}

/// The original's `next_row`, row after row. A tree is dropped before the next one is made.
pub fn decode_original(case: &Case, format: &Original, rows: u64) -> f64 {
    let mut decoder = Decoder::new(black_box(case.input.as_slice()), format.clone());
    nanoseconds(|| {
        let mut met = 0;
        while let Some(row) = decoder.next_row().expect("good rows") {
            black_box(row);
            met += 1;
        }
        assert_eq!(met, rows);
    })
}

/// The format's check alone: a run over no bytes, and the original's over trees that stand already.
pub fn check_library(case: &Case, repetitions: u32) -> f64 {
    let format = tables(case);
    nanoseconds(|| {
        for _ in 0..repetitions {
            assert_eq!(black_box(&format).run(&Settings::default(), &[]).stop, Stop::End);
        }
    }) / f64::from(repetitions)
}

pub fn check_original(format: &Original, repetitions: u32) -> f64 {
    nanoseconds(|| {
        for _ in 0..repetitions {
            assert!(black_box(format).validate().is_ok());
        }
    }) / f64::from(repetitions)
}
