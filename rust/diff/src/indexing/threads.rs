//! Two threads that index at once: the slices that are read are shared, and can't be written while they are; each
//! thread has its own for what is written.

use super::library::{same, Given, Reply};
use super::{describe, filled_lent, left_over, IndexCase};
use crate::at_once::by_two_threads;
use crate::fence::{ReadOnly, Turn};
use crate::generate::indexes;
use crate::rng::Rng;
use crate::trap;

/// So many streams are drawn.
const STREAMS: u64 = 600;

const ANSWER: usize = 88;

struct Question {
    case: IndexCase,
    slices: [ReadOnly; 5],
    lent: [Vec<u8>; 2],
    wanted: Reply,
}

impl Question {
    fn new(case: IndexCase, number: u64) -> Self {
        let turn = Turn::new(number);
        let slices = case.stream.strings().map(|string| ReadOnly::new(string, turn.place()));
        let lent = filled_lent(&case);
        let left = left_over(&case.plainly(), &case, lent.clone());
        let wanted = Reply::expected(&case, &left, &lent, ANSWER);
        Self { case, slices, lent, wanted }
    }

    /// How many calls were made, or what is wrong about one.
    fn ask(&self, number: u64) -> Result<u64, String> {
        let slices = self.slices.each_ref().map(|slice| &**slice);
        let given = Given::new(&self.case, slices, Turn::new(number));
        same(&self.case.call.to_string(), &given.call(ANSWER, &self.lent), &self.wanted)?;
        Ok(1)
    }
}

/// How many calls were right, or the first that was not.
pub fn check() -> Result<u64, String> {
    let drawn = (0..STREAMS).flat_map(|number| indexes::random(&mut Rng::for_case(2, number)));
    let questions: Vec<Question> =
        drawn.zip(0..).map(|((_, case), number)| Question::new(case, number)).collect();
    by_two_threads(&questions, |question, number| {
        let told = || describe(&question.case);
        trap::while_asked(&told, || question.ask(number)).map_err(|why| format!("{why}\n{}", told()))
    })
}
