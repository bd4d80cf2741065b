//! Slices of 4,294,967,295 bytes and of one more. They are zeros of which a few pages at most are ever
//! written, so they cost address space and hardly any memory; where even that can't be had, the caller is
//! told.

use plain::decoding::decode;
use plain::reading::{run, skip};
use plain::report::Report;
use plain::settings::{Settings, MOST};
use plain::tables::FormatTables;
use skiff::sys::{self, Numbers};
use skiff::Format;

use super::{filling, numbers, Reply, LENT_FILLING};
use crate::fence::{Fenced, Place};
use crate::generate::rows::usual;
use crate::plan::{inline, lay_out, over, table_of, Plan};
use crate::trap;

pub(crate) const BOUND: usize = MOST as usize;

/// Of a lent slice only so many bytes are filled before a call and looked at after it.
const NEAR: usize = 256;

/// One byte more than a slice may have, all zero, between unreadable pages. None where there is no room.
pub(crate) fn zeros() -> Option<Fenced> {
    Fenced::new(BOUND + 1)
}

/// A format of one table of one column.
struct Column {
    records: Vec<u8>,
    names: Vec<u8>,
    references: Vec<u8>,
}

impl Column {
    fn new(column: &[Plan]) -> Self {
        let (mut records, mut names) = (Vec::new(), Vec::new());
        let block = lay_out(&table_of(column), &mut records, &mut names);
        Self { records, names, references: inline(block).to_vec() }
    }

    fn call<'a>(&'a self, input: &'a [u8]) -> Call<'a> {
        let slices = [&self.records[..], &self.names, &self.references, &[], input];
        Call { slices, settings: usual(), position: 0 }
    }
}

/// A call over five slices that are read.
#[derive(Clone, Copy)]
struct Call<'a> {
    slices: [&'a [u8]; 5],
    settings: Settings,
    position: u64,
}

/// How many calls were right, or the first that was not.
pub(crate) type Right = Result<u64, String>;

impl<'a> Call<'a> {
    fn plain(&self) -> (FormatTables<'a>, &'a [u8]) {
        let [records, names, references, registry, input] = self.slices;
        (FormatTables { records, names, references, registry }, input)
    }

    fn library(&self) -> (Numbers, Format<'a>, &'a [u8]) {
        let [records, names, references, registry, input] = self.slices;
        (numbers(self.settings), Format { records, names, references, registry }, input)
    }

    fn skip(&self) -> Right {
        let (tables, input) = self.plain();
        let report = Report::of_skip(&skip(&self.settings, &tables, input, self.position));
        let (numbers, format, input) = self.library();
        let got =
            Reply::of(88, Place::End, |answer| sys::skip(numbers, &format, input, self.position, answer));
        same("skip", Reply::expected(&report, 88), got)
    }

    fn run(&self) -> Right {
        let (tables, input) = self.plain();
        let report = Report::of_run(&run(&self.settings, &tables, input));
        let (numbers, format, input) = self.library();
        let got = Reply::of(88, Place::End, |answer| sys::run(numbers, &format, input, answer));
        same("run", Reply::expected(&report, 88), got)
    }

    fn decode(&self, lent: [&mut [u8]; 2]) -> Right {
        let [records, payload] = lent;
        let (tables, input) = self.plain();
        let wanted = Reply::near([records, payload], |records, payload, answer| {
            let done = decode(&self.settings, &tables, input, self.position, records, payload);
            Report::of_skip(&done).write_to(answer)
        });
        let (numbers, format, input) = self.library();
        let got = Reply::near([records, payload], |records, payload, answer| {
            sys::decode(numbers, &format, input, self.position, records, payload, answer)
        });
        same("decode", wanted, got)
    }
}

impl Reply {
    /// A decoding call into slices of which only the first bytes are looked at.
    pub(crate) fn near(
        lent: [&mut [u8]; 2],
        call: impl FnOnce(&mut [u8], &mut [u8], &mut [u8]) -> u32,
    ) -> Self {
        let [records, payload] = lent;
        for (slice, from) in [&mut *records, &mut *payload].into_iter().zip(LENT_FILLING) {
            slice.iter_mut().take(NEAR).zip(from..).for_each(|(byte, index)| *byte = filling(index));
        }
        let reply = Self::of(88, Place::End, |answer| call(records, payload, answer));
        let near = |slice: &[u8]| slice[..slice.len().min(NEAR)].to_vec();
        Self { lent: Some([near(records), near(payload)]), ..reply }
    }
}

pub(crate) fn same(call: &str, wanted: Reply, got: Reply) -> Right {
    if wanted == got {
        return Ok(1);
    }
    Err(format!("{call}\n  library: {}\n  plain:   {}", got.in_words(), wanted.in_words()))
}

/// How many calls were right; an error tells the first that was not. None where there is no room.
pub fn check() -> Option<Right> {
    let (mut zeros, mut lent) = (zeros()?, zeros()?);
    Some(trap::while_asked(&|| "a slice of 4,294,967,295 bytes or one more".to_owned(), || {
        all(zeros.bytes(), lent.bytes())
    }))
}

fn all(zeros: &mut [u8], lent: &mut [u8]) -> Right {
    Ok(read_slices(zeros)? + lent_slices(lent)? + full_slice(zeros, lent)?)
}

/// Each of the five slices that are read, with the others small.
fn read_slices(zeros: &[u8]) -> Right {
    // Every row of the first is refused at its tag, so that a run is short; of the other, zeros are rows.
    let (refused, accepted) = (Column::new(&[Plan::new(15, 0)]), Column::new(&[Plan::new(8, 0)]));
    let mut right = 0;
    for (column, runs) in [(&refused, true), (&accepted, false)] {
        for which in 0..5 {
            for bytes in [BOUND, BOUND + 1] {
                for position in [0, 3, MOST - 3, MOST - 1, MOST, MOST + 1] {
                    let mut call = Call { position, ..column.call(&[0, 0, 0]) };
                    call.slices[which] = &zeros[..bytes];
                    let told =
                        |message| format!("slice {which} of {bytes} bytes, position {position}: {message}");
                    right += call.skip().map_err(told)?;
                    right += call.decode([&mut [0; 48], &mut [0; 5]]).map_err(told)?;
                    right += if runs { call.run().map_err(told)? } else { 0 };
                }
            }
        }
    }
    Ok(right)
}

/// Both slices that are lent, one at a time: a row, a cut one, and an end.
fn lent_slices(lent: &mut [u8]) -> Right {
    let column = Column::new(&[Plan::new(13, 0)]);
    let row = [0, 0, 3, 0, 0, 0, b'a', b'b', b'c'];
    let mut right = 0;
    for bytes in [BOUND, BOUND + 1] {
        for input in [&row[..], &row[..8], &[]] {
            let call = column.call(input);
            let told = |message| format!("{} bytes into slices of {bytes}: {message}", input.len());
            right += call.decode([&mut lent[..bytes], &mut [0; 5]]).map_err(told)?;
            right += call.decode([&mut [0; 48], &mut lent[..bytes]]).map_err(told)?;
        }
    }
    Ok(right)
}

/// As many records as there is room for in a slice of the most bytes that count, and one more. There is no
/// room for the payload of either row, so nothing is written.
fn full_slice(zeros: &mut [u8], lent: &mut [u8]) -> Right {
    let column = Column::new(&over(17, &[0, 13]));
    let end = [1, 1, 0, 0, 0, b'x', 255];
    let most = BOUND / 16;
    let mut right = 0;
    for records in [most, most + 1] {
        // Besides the empty elements: the root, the list, and its last element, which has the payload.
        let elements = records - 3;
        zeros[2 + elements..][..end.len()].copy_from_slice(&end);
        let settings = Settings { node_charge: 1, max_row_bytes: MOST, ..usual() };
        let call = Call { settings, ..column.call(&zeros[..2 + elements + end.len()]) };
        for bytes in [BOUND, BOUND + 1] {
            let told = |message| format!("{records} records into {bytes} bytes: {message}");
            right += call.decode([&mut lent[..bytes], &mut []]).map_err(told)?;
        }
        zeros[2 + elements..][..end.len()].fill(0);
    }
    Ok(right)
}
