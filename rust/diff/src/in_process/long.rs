//! Runs over some million rows, held to a loop over the original's `skip_row`: rows and bytes, and a refusal in the
//! last row. The original knows no places, so that of the refusal is the plain reading's, of the last row alone.

use plain::reading::skip;
use plain::report::{what, Report};
use skiff::sys;
use skiff::Format;

use super::{numbers, Reply};
use crate::case::{op, Case};
use crate::fence::{Held, Place};
use crate::generate::rows::edges::{schema_a, FULL};
use crate::generate::rows::usual;
use crate::generate::rows::values::{write_row, Taste};
use crate::judge::tables;
use crate::original;
use crate::plan::{inline, lay_out, Plan};
use crate::rng::Rng;
use crate::trap;

/// Rows of each stream, the last one included.
const ROWS: u64 = 3_000_000;

/// Small values, so that so many rows are not too many bytes.
const SMALL: Taste = Taste { blob_bytes: |rng| rng.below(5), items: |rng| rng.below(3), tag: Rng::below };

/// tuple("id" uint64, "tags" repeated_variant8(string32, nothing),
/// "deep" repeated_variant16(tuple(uint8, repeated_variant8(boolean), variant8(nothing, int16)))).
fn nested() -> Vec<Plan> {
    let leaf = |code: u8| Plan::new(code, 0);
    let columns = [Plan::named(11, 0, b"id"), Plan::named(17, 2, b"tags"), Plan::named(18, 1, b"deep")];
    let below = [leaf(13), leaf(0), Plan::new(19, 3), leaf(8), Plan::new(17, 1), Plan::new(15, 2)];
    [&[Plan::new(19, 3)], &columns[..], &below, &[leaf(1), leaf(0), leaf(3)]].concat()
}

/// A schema, its last row, and where in that a tag stands that 2 is too much for.
struct Rows {
    name: &'static str,
    plans: Vec<Plan>,
    last: Vec<u8>,
    tag: usize,
}

fn streams() -> [Rows; 2] {
    let id = [[0, 0].as_slice(), &[7; 8], &[1, 255, 255, 255]].concat();
    [
        Rows { name: "the client's schema", plans: schema_a(), last: FULL.to_vec(), tag: 3 },
        Rows { name: "lists of lists", plans: nested(), last: id, tag: 10 },
    ]
}

impl Rows {
    /// All rows, and where the last begins.
    fn stream(&self) -> (Case, usize) {
        let mut case = Case { op: op::RUN, ..Case::default() }.with_settings(usual());
        let block = lay_out(&self.plans, &mut case.records, &mut case.names);
        case.references.extend(inline(block));
        let rng = &mut Rng::new(ROWS);
        for _ in 1..ROWS {
            write_row(rng, &SMALL, (0, block), &case.records, &mut case.input);
        }
        let last = case.input.len();
        case.input.extend_from_slice(&self.last);
        (case, last)
    }
}

/// What the library has to answer to a run, and whether it does.
fn is_right(case: &Case, rows: u64) -> Result<(), String> {
    let said = original::ask(case).expect("these are rows that it knows");
    let [said_rows, bytes] = said.run.expect("it was asked for a run");
    let mut report = Report { what: what::END, rows: said_rows, bytes, ..Report::default() };
    if said.number != 0 {
        let last = Report::of_skip(&skip(&case.settings(), &tables(case), &case.input, bytes));
        if (last.number, last.carried) != (said.number, said.values) {
            return Err(format!("original: {said}, plain, of its last row: {last:?}"));
        }
        report = Report { rows: said_rows, bytes, ..last };
    }
    if said_rows != rows {
        return Err(format!("original: {said}, and {rows} rows were written"));
    }
    let slices = case.strings().map(|string| Held::new(string, Place::End));
    let [records, names, references, registry, input] = slices.each_ref().map(|held| &**held);
    let format = Format { records, names, references, registry };
    let got = Reply::of(88, Place::End, |answer| sys::run(numbers(case.settings()), &format, input, answer));
    let wanted = Reply::expected(&report, 88);
    if got == wanted {
        return Ok(());
    }
    Err(format!("\n  library:  {}\n  wanted:   {}\n  original: {said}", got.in_words(), wanted.in_words()))
}

/// A stream that ends well, and its last row cut, with a wrong tag, and of a table that is not there.
fn all_ends(rows: &Rows) -> Result<u64, String> {
    let (mut case, last) = rows.stream();
    let mut right = 0;
    let mut ask = |end: &str, case: &Case, rows_left: u64| {
        let told = || format!("a run over {ROWS} rows of {}, {end}", rows.name);
        right += rows_left;
        trap::while_asked(&told, || is_right(case, rows_left)).map_err(|why| format!("{}: {why}", told()))
    };
    ask("which end well", &case, ROWS)?;
    for (end, at, byte) in [("a tag too large in the last", rows.tag, 2), ("the last of no table", 0, 1)] {
        let kept = std::mem::replace(&mut case.input[last + at], byte);
        ask(end, &case, ROWS - 1)?;
        case.input[last + at] = kept;
    }
    case.input.pop();
    ask("the last cut", &case, ROWS - 1)?;
    Ok(right)
}

/// How many rows were run over, or the first answer that is wrong.
pub fn check() -> Result<u64, String> {
    streams().iter().map(all_ends).sum()
}
