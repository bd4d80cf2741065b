//! The index calls with slices of 4,294,967,295 bytes and of one more: each that is read, and the index where it is
//! written, of which only the first so many bytes count.

use plain::indexing::{build, check as check_index, decode_row, extend, IndexRecord, Plainly};
use plain::reading::{Run, Skipped};
use plain::report::{what, Report};
use plain::settings::MOST;
use plain::tables::FormatTables;

use super::calls::Streamed;
use crate::case::Case;
use crate::generate::rows::edges::{schema_a, FULL};
use crate::generate::rows::usual;
use crate::in_process::huge::{zeros, BOUND};
use crate::plan::{inline, lay_out, Plan};
use crate::trap;

/// How many calls were right, or the first that was not.
type Right = Result<u64, String>;

/// Of an index only so many bytes at its start and at its end are filled before a call and looked at after it.
const NEAR: usize = 64;

/// Whole records in the bytes that count.
const MOST_RECORDS: u64 = MOST / 16;

/// What a call left: its number and its answer, and what is near the ends of the index.
#[derive(Debug, PartialEq, Eq)]
struct Left(u32, [u8; 88], Vec<u8>);

/// A call with an index that begins with these bytes, and ends with others.
fn left(index: &mut [u8], first: &[u8], call: impl FnOnce(&mut [u8], &mut [u8]) -> u32) -> Left {
    let length = index.len();
    index[..NEAR].fill(0x5C);
    index[length - NEAR..].fill(0x69);
    index[..first.len()].copy_from_slice(first);
    let mut answer = [0xA5; 88];
    let returned = call(index, &mut answer);
    let near = [&index[..NEAR], &index[length - NEAR..]].concat();
    // The next call finds zeros again where nobody looks.
    index[..NEAR].fill(0);
    index[length - NEAR..].fill(0);
    Left(returned, answer, near)
}

fn same(words: &str, got: Left, wanted: Left) -> Right {
    if got == wanted {
        return Ok(1);
    }
    Err(format!("{words}\n  library: {got:02x?}\n  plain:   {wanted:02x?}"))
}

fn of_run(run: Run, answer: &mut [u8]) -> u32 {
    Report::of_run(&run).write_to(answer)
}

/// All four calls about one stream, with a long index that begins with these bytes.
fn all_calls(streamed: &Streamed, index: &mut [u8], first: &[u8], counts: &[u64]) -> Right {
    let [records, names, references, registry, input] = streamed.slices;
    let tables = FormatTables { records, names, references, registry };
    let plain = &Plainly { settings: streamed.settings, tables, input };
    let mut right = same(
        "build",
        left(index, first, |index, answer| streamed.build_index(index, answer)),
        left(index, first, |index, answer| of_run(build(plain, index), answer)),
    )?;
    right += same(
        "check",
        left(index, first, |index, answer| streamed.check_index(index, answer)),
        left(index, first, |index, answer| of_run(check_index(plain, index), answer)),
    )?;
    for count in counts {
        right += same(
            &format!("extend from {count}"),
            left(index, first, |index, answer| streamed.extend_index(*count, index, answer)),
            left(index, first, |index, answer| of_run(extend(plain, *count, index), answer)),
        )?;
        let mut lent = [[[0xA5; 64], [0x5A; 64]], [[0xA5; 64], [0x5A; 64]]];
        let [[records, payload], own] = &mut lent;
        let got = left(index, first, |index, answer| {
            streamed.decode_indexed(index, *count, [records, payload], answer)
        });
        let [own_records, own_payload] = own;
        let wanted = left(index, first, |index, answer| {
            let done = decode_row(plain, index, *count, own_records, own_payload);
            Report::of_skip(&done.map(Skipped::Row)).write_to(answer)
        });
        right += same(&format!("row {count}"), got, wanted)?;
        if lent[0] != lent[1] {
            return Err(format!("row {count}: {:02x?} and not {:02x?}", lent[0], lent[1]));
        }
    }
    Ok(right)
}

fn format_of(plans: &[Plan]) -> Case {
    let mut case = Case::default().with_settings(usual());
    let block = lay_out(plans, &mut case.records, &mut case.names);
    case.references.extend(inline(block));
    case
}

fn streamed<'a>(case: &'a Case, input: &'a [u8]) -> Streamed<'a> {
    let slices = [&case.records[..], &case.names, &case.references, &case.registry, input];
    Streamed { settings: case.settings(), slices }
}

/// None where there is no room for such slices.
pub fn check() -> Option<Right> {
    let (mut index, zeros) = (zeros()?, zeros()?);
    let mut zeros = zeros;
    Some(trap::while_asked(&|| "a slice of 4,294,967,295 bytes or one more".to_owned(), || {
        let (index, zeros) = (index.bytes(), zeros.bytes());
        Ok(long_indexes(index)? + read_slices(index, zeros)? + more_rows_than_records(index, zeros)?)
    }))
}

/// Counts at the edges of what a slice of so many bytes holds, and of what counts of it.
const COUNTS: [u64; 8] = [0, 1, 2, 3, MOST_RECORDS - 1, MOST_RECORDS, MOST_RECORDS + 1, MOST_RECORDS + 2];

/// Two rows: an index of them that is right and one that is not, in a slice that is too long for either.
fn long_indexes(index: &mut [u8]) -> Right {
    let case = format_of(&schema_a());
    let input = FULL.repeat(2);
    let whole: Vec<u8> = [0, 10].iter().flat_map(|offset| record(*offset)).collect();
    let mut right = 0;
    for bytes in [BOUND, BOUND + 1] {
        for first in [&whole[..], &whole[..16], &[]] {
            for input in [&input[..], &input[..19], &[]] {
                let told = |message| {
                    format!(
                        "index of {bytes} bytes, {} of them set, input of {}: {message}",
                        first.len(),
                        input.len()
                    )
                };
                right +=
                    all_calls(&streamed(&case, input), &mut index[..bytes], first, &COUNTS).map_err(told)?;
            }
        }
    }
    Ok(right)
}

fn record(offset: u64) -> [u8; 16] {
    IndexRecord { offset, length: 10, table: 0 }.in_bytes()
}

/// Each of the five slices that are read, with the others small: 1 where it is one byte too long.
fn read_slices(index: &mut [u8], zeros: &[u8]) -> Right {
    // Every row is refused at its tag, so that a run is short.
    let case = format_of(&[Plan::new(19, 1), Plan::named(15, 0, b"c")]);
    let mut right = 0;
    for which in 0..5 {
        for bytes in [BOUND, BOUND + 1] {
            let mut streamed = streamed(&case, &[0, 0, 0]);
            streamed.slices[which] = &zeros[..bytes];
            let told = |message| format!("slice {which} of {bytes} bytes: {message}");
            right += all_calls(&streamed, &mut index[..256], &record(0), &[0, 1, 17]).map_err(told)?;
        }
    }
    Ok(right)
}

/// A row more than there are records in the bytes that count, though a slice of one byte more has room for it: each
/// row is a table's tag alone. What is answered follows from how many there are.
fn more_rows_than_records(index: &mut [u8], zeros: &[u8]) -> Right {
    if cfg!(feature = "double") {
        println!("(the test double is not asked about {} rows: it would hold them all)", MOST_RECORDS + 1);
        return Ok(0);
    }
    let case = format_of(&[Plan::new(19, 0)]);
    let rows = MOST_RECORDS + 1;
    let input = &zeros[..2 * rows as usize];
    let streamed = streamed(&case, input);
    let refused =
        Report { what: what::REFUSAL, number: 30, rows, bytes: input.len() as u64, ..Report::default() };
    let wanted = |index: &mut [u8]| left(index, &[], |_, answer| refused.write_to(answer));
    let mut right = 0;
    for bytes in [BOUND, BOUND + 1] {
        let index = &mut index[..bytes];
        let got = left(index, &[], |index, answer| streamed.build_index(index, answer));
        right += same(&format!("build of {rows} rows into {bytes} bytes"), got, wanted(index))?;
        let got = left(index, &[], |index, answer| streamed.extend_index(0, index, answer));
        right += same(&format!("extend to {rows} rows in {bytes} bytes"), got, wanted(index))?;
    }
    Ok(right)
}
