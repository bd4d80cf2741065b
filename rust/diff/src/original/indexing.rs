//! The index over the original's rows: `skip_row` says where rows begin and end, and of which table they are;
//! `next_row` what they hold. The original has no index of its own, so the sentences of the index are the plain
//! reading's, and only what stands under them is the original.

use std::cell::Cell;

use oracle::Format;
use plain::answer::{Checked, Refusal};
use plain::decoding::ValueTable;
use plain::indexing::{IndexRecord, Stream};
use plain::report::{what, Report};

use super::rows::{decoder, flatten, row_refused, takes_settings};
use super::{format, laid, refused, Said};
use crate::case::Case;
use crate::indexing::{left_over, Call, IndexCase, Left};

/// A stream as the original reads it. It knows no places: they are all 0 here.
struct Originally<'a> {
    case: &'a Case,
    format: Result<Format, Refusal>,
}

fn without_place(said: Said) -> Refusal {
    Refusal::at(said.number, 0, said.values)
}

impl<'a> Originally<'a> {
    /// None outside the domain, as for rows.
    fn of(case: &'a Case) -> Option<Self> {
        if !takes_settings(case) {
            return None;
        }
        let format = format(case)?.map_err(|error| without_place(refused(case, error)));
        Some(Self { case, format })
    }

    fn format(&self) -> Format {
        self.format.clone().expect("rows are read of a good format")
    }
}

impl Stream for Originally<'_> {
    /// Which numbers are refused by 1 is told before the original is asked.
    fn opened(&self) -> Checked {
        self.format.as_ref().map(|_| ()).map_err(|refusal| *refusal)
    }

    fn bytes(&self) -> u64 {
        self.case.input.len() as u64
    }

    fn skipped(&self, offset: u64) -> Result<(u64, u64), Refusal> {
        let from = &self.case.input[offset as usize..];
        let rest = Cell::new(from);
        match decoder(self.case, self.format(), &rest).skip_row() {
            Ok(table) => {
                let table = table.expect("there are bytes, so it is no end");
                Ok((table as u64, (from.len() - rest.get().len()) as u64))
            }
            Err(error) => Err(without_place(row_refused(self.case, error))),
        }
    }

    fn value_table(&self, offset: u64) -> ValueTable {
        let rest = Cell::new(&self.case.input[offset as usize..]);
        let row = decoder(self.case, self.format(), &rest).next_row();
        let (_, value) = row.expect("what skips decodes").expect("what skips is no end");
        let mut flat = ValueTable::default();
        flatten(&value, 0, &mut flat);
        flat
    }
}

/// What the index calls leave over the original's rows; none outside its domain.
pub fn ask(case: &IndexCase, lent: [Vec<u8>; 2]) -> Option<Left> {
    if laid::index_refusal(case).is_some() {
        return None;
    }
    Some(left_over(&Originally::of(&case.stream)?, case, lent))
}

/// The original knows no places of a format's and a row's own refusals.
fn has_its_place(number: u64) -> bool {
    !(4..=17).contains(&number)
}

/// The plain reading leaves what the original's rows come to.
pub fn agrees(plain: &Left, original: &Left) -> bool {
    let place = if has_its_place(plain.report.number) { plain.report.place } else { 0 };
    let report = Report { place, ..plain.report };
    report == original.report && plain.index == original.index && plain.lent == original.lent
}

/// The same as it is said of a case that a program is asked.
pub fn said(call: Call, left: Left) -> Said {
    let Left { report, index, lent } = left;
    let said = Said::new(report.number, report.carried);
    if call != Call::Row {
        let wrote = (call != Call::Check).then_some((0, index));
        return Said { run: Some([report.rows, report.bytes]), wrote, ..said };
    }
    let said = Said { lent: Some(lent), ..said };
    if report.what != what::ROW {
        return said;
    }
    let values = [report.bytes, report.records, report.payload];
    Said { table: Some(report.table), values, ..said }
}

/// The rows of a long stream that has no others, by one decoder that goes on from row to row.
pub fn rows_of(case: &Case) -> Vec<IndexRecord> {
    let rest = Cell::new(case.input.as_slice());
    let format = format(case).expect("UTF-8 names").expect("a good format");
    let mut decoder = decoder(case, format, &rest);
    let mut rows = Vec::new();
    let mut offset = 0;
    while let Some(table) = decoder.skip_row().expect("good rows") {
        let end = (case.input.len() - rest.get().len()) as u64;
        rows.push(IndexRecord { offset, length: end - offset, table: table as u64 });
        offset = end;
    }
    rows
}
