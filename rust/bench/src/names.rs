//! What names cost: the check of a format like the client's, whose columns have names of some lengths, of ASCII or of
//! characters of two bytes, and its rows decoded, in which each call has that check. Only calls that older archives
//! have, so that the same program can be linked with one from before names were looked at.

use std::hint::black_box;

use diff::case::Case;
use diff::plan::{inline, lay_out, Plan};
use skiff::sys;

use crate::schemas::ALL;
use crate::timing::{nanoseconds, tables};

/// How the letters of a name are written.
#[derive(Debug, Clone, Copy, PartialEq, Eq)]
pub enum Letters {
    Ascii,
    /// Two bytes each; where the length is odd, an ASCII letter at the end.
    Cyrillic,
}

impl Letters {
    pub fn in_words(self) -> &'static str {
        match self {
            Self::Ascii => "ASCII",
            Self::Cyrillic => "Cyrillic letters",
        }
    }
}

/// Bytes of a column's name, and its letters. One byte has no room for another letter than an ASCII one.
pub const NAMES: [(usize, Letters); 5] = [
    (1, Letters::Ascii),
    (16, Letters::Ascii),
    (255, Letters::Ascii),
    (16, Letters::Cyrillic),
    (255, Letters::Cyrillic),
];

/// A name of so many bytes, all of one letter.
fn name(bytes: usize, letters: Letters, [ascii, cyrillic]: [&str; 2]) -> Vec<u8> {
    match letters {
        Letters::Ascii => ascii.repeat(bytes),
        Letters::Cyrillic => cyrillic.repeat(bytes / 2) + &ascii.repeat(bytes % 2),
    }
    .into_bytes()
}

/// The client's format and rows with other names: tuple(p.. uint8, n.. variant8(nothing, string32)).
pub fn stream(bytes: usize, letters: Letters, rows: u64) -> Case {
    let (page, name_of) = (name(bytes, letters, ["p", "п"]), name(bytes, letters, ["n", "н"]));
    let columns = [Plan::named(8, 0, &page), Plan::named(15, 2, &name_of)];
    let plans = [&[Plan::new(19, 2)], &columns[..], &[Plan::new(0, 0), Plan::new(13, 0)]].concat();
    let mut case = Case { input: ALL[0].stream(rows).input, ..Case::default() };
    let block = lay_out(&plans, &mut case.records, &mut case.names);
    case.references.extend(inline(block));
    case
}

/// The check of the format by itself: nanoseconds a call.
pub fn check(case: &Case, repetitions: u32) -> f64 {
    let format = tables(case);
    let mut answer = [0; sys::ANSWER_SIZE];
    nanoseconds(|| {
        for _ in 0..repetitions {
            let refused = sys::check_format(black_box(&format), black_box(&mut answer));
            assert_eq!(refused, 0, "a good format");
        }
    }) / f64::from(repetitions)
}

/// Columns of one table that share a name, its bytes and its letters: what is judged for each of them stands once.
pub const SHARED: [(u32, usize, Letters); 4] = [
    (4_096, 255, Letters::Ascii),
    (4_096, 255, Letters::Cyrillic),
    (64, 65_535, Letters::Ascii),
    (64, 65_535, Letters::Cyrillic),
];

/// A format of one table with so many columns of uint8, all of one name, which stands in the store once.
pub fn shared(columns: u32, bytes: usize, letters: Letters) -> Case {
    let mut plans = vec![Plan::new(8, 0); columns as usize + 1];
    plans[0] = Plan::new(19, columns);
    plans[1] = Plan::named(8, 0, &name(bytes, letters, ["p", "п"]));
    let mut case = Case::default();
    let block = lay_out(&plans, &mut case.records, &mut case.names);
    case.references.extend(inline(block));
    let (first, others) = case.records[16..].split_at_mut(16);
    for column in others.chunks_exact_mut(16) {
        // Named, the name's length and its start are the bytes 1 to 7.
        column[1..8].copy_from_slice(&first[1..8]);
    }
    case
}

#[cfg(test)]
mod tests {
    use super::*;

    #[test]
    fn names_have_their_lengths() {
        for (bytes, letters) in NAMES {
            let case = stream(bytes, letters, 3);
            assert_eq!(case.names.len(), 2 * bytes);
            let text = std::str::from_utf8(&case.names).expect("names are text");
            assert_eq!(text.is_ascii(), letters == Letters::Ascii);
        }
    }

    #[test]
    fn a_shared_name_stands_once() {
        for (columns, bytes, letters) in SHARED {
            let case = shared(columns, bytes, letters);
            assert_eq!((case.names.len(), case.records.len()), (bytes, 16 * (columns as usize + 1)));
            let mut names = case.records.chunks_exact(16).skip(1).map(|record| &record[1..8]);
            assert!(names.all(|name| name == &case.records[17..24] && name[0] == 1));
        }
    }
}
