//! Two threads that ask for texts at once: the bytes are shared, and can't be written while they are; each thread has its
//! own slices for text and answer.

use super::run::calls;
use super::{by_the_library, describe, plainly, same, IntegerCase, Left};
use crate::at_once::by_two_threads;
use crate::fence::{ReadOnly, Turn};
use crate::generate::integers::edges;
use crate::trap;

struct Question {
    case: IntegerCase,
    bytes: ReadOnly,
    lent: Vec<u8>,
    wanted: Left,
}

impl Question {
    fn new(case: IntegerCase, number: u64) -> Self {
        let bytes = ReadOnly::new(&case.bytes, Turn::new(number).place());
        let lent = case.lent();
        let (_, wanted) = plainly(&case, &lent);
        Self { case, bytes, lent, wanted }
    }
}

/// How many calls were right, or the first that was not.
pub fn check() -> Result<u64, String> {
    let cases = edges(16).into_iter().zip(0..).flat_map(|(bytes, number)| calls(bytes, number));
    let questions: Vec<Question> = cases.zip(0..).map(|(case, number)| Question::new(case, number)).collect();
    by_two_threads(&questions, |Question { case, bytes, lent, wanted }, number| {
        let told = || describe(case);
        let asked = || by_the_library(bytes, lent, case.answer, &Turn::new(number));
        same(&trap::while_asked(&told, asked), wanted).map_err(|why| format!("{why}\n{}", told()))?;
        Ok(1)
    })
}
