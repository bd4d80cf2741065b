//! Two threads that write at once: the slices that are read are shared, and can't be written while they are; each
//! thread has its own for output and answer.

use plain::answer::Refusal;
use plain::reading::Row;
use plain::tables::record_count;

use super::library::{answers, slices, Given};
use super::run::calls;
use super::{describe, plain_encoded, WriteCase};
use crate::at_once::by_two_threads;
use crate::fence::{ReadOnly, Turn};
use crate::generate::writes;
use crate::rng::Rng;
use crate::trap;

/// So many cases are drawn.
const CASES: u64 = 1_000;

struct Question {
    case: WriteCase,
    slices: [ReadOnly; 4],
    done: Result<Row, Refusal>,
    output: Vec<u8>,
}

impl Question {
    fn new(case: WriteCase, number: u64) -> Self {
        let turn = Turn::new(number);
        let slices = slices(&case).map(|slice| ReadOnly::new(slice, turn.place()));
        let (done, output) = plain_encoded(&case);
        Self { case, slices, done, output }
    }

    /// How many calls were made, or what is wrong about one.
    fn ask(&self, number: u64) -> Result<u64, String> {
        let slices = self.slices.each_ref().map(|slice| &**slice);
        let given = Given::new(&self.case, slices, Turn::new(number));
        answers(&given, 88, &self.done, &self.output)?;
        Ok(4 + record_count(&self.case.value.records))
    }
}

/// How many calls were right, or the first that was not.
pub fn check() -> Result<u64, String> {
    let drawn = (0..CASES).flat_map(|number| calls(writes::random(&mut Rng::for_case(2, number)).1, number));
    let questions: Vec<Question> = drawn.zip(0..).map(|(case, number)| Question::new(case, number)).collect();
    by_two_threads(&questions, |question, number| {
        let told = || describe(&question.case);
        trap::while_asked(&told, || question.ask(number)).map_err(|why| format!("{why}\n{}", told()))
    })
}
