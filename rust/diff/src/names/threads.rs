//! Two threads that ask about names at once: what is read is shared, and can't be written while it is; each thread has
//! its own answer slices.

use plain::format::validate_format;
use plain::report::Report;
use skiff::{sys, Format};

use super::{plainly, same};
use crate::at_once::by_two_threads;
use crate::case::{hex, op, Case};
use crate::fence::{ReadOnly, Turn};
use crate::generate::named_formats::random;
use crate::generate::names::{BAD, GOOD};
use crate::in_process::Reply;
use crate::judge::tables;
use crate::rng::Rng;
use crate::show::describe;
use crate::trap;

const ANSWER: usize = 88;

/// So many formats are drawn.
const FORMATS: u64 = 2_000;

enum Question {
    Name { name: ReadOnly, wanted: Reply },
    Format { case: Box<Case>, slices: [ReadOnly; 5], wanted: Reply },
}

impl Question {
    fn of_name(name: &[u8], number: u64) -> Result<Self, String> {
        let wanted = Reply::expected(&plainly(name)?, ANSWER);
        Ok(Self::Name { name: ReadOnly::new(name, Turn::new(number).place()), wanted })
    }

    fn of_format(case: Case, number: u64) -> Self {
        let turn = Turn::new(number);
        let slices = case.strings().map(|string| ReadOnly::new(string, turn.place()));
        let wanted = Reply::expected(&Report::of_checked(&validate_format(&tables(&case))), ANSWER);
        Self::Format { case: Box::new(case), slices, wanted }
    }

    fn in_words(&self) -> String {
        match self {
            Self::Name { name, .. } => format!("  the name {}", hex(name)),
            Self::Format { case, .. } => describe(case),
        }
    }

    fn ask(&self, number: u64) -> Result<u64, String> {
        let place = Turn::new(number).place();
        match self {
            Self::Name { name, wanted } => {
                same(&Reply::of(ANSWER, place, |answer| sys::check_name(name, answer)), wanted)?;
            }
            Self::Format { slices, wanted, .. } => {
                let [records, names, references, registry, _] = slices.each_ref().map(|slice| &**slice);
                let format = Format { records, names, references, registry };
                same(&Reply::of(ANSWER, place, |answer| sys::check_format(&format, answer)), wanted)?;
            }
        }
        Ok(1)
    }
}

/// How many calls were right, or the first that was not.
pub fn check() -> Result<u64, String> {
    let names = GOOD.iter().map(|text| text.as_bytes()).chain(BAD.iter().map(|(_, bytes)| *bytes));
    let names = names.zip(0..).map(|(name, number)| Question::of_name(name, number));
    let formats = (0..FORMATS).map(|number| (random(&mut Rng::for_case(9, number)).1, number));
    let formats = formats.filter(|(case, _)| case.op == op::FORMAT);
    let formats = formats.map(|(case, number)| Ok(Question::of_format(case, number)));
    let questions: Vec<Question> = names.chain(formats).collect::<Result<_, String>>()?;
    by_two_threads(&questions, |question, number| {
        let told = || question.in_words();
        let asked = trap::while_asked(&told, || question.ask(number));
        asked.map_err(|why| format!("{why}\n{}", told()))
    })
}
