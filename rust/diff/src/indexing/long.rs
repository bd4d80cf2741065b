//! Indexes of some hundred thousand rows, held to a loop over the original's `skip_row`: built, checked whole and
//! with one wrong record, extended from the start, the middle and the end, and rows decoded by them.

use plain::decoding::decode;
use plain::indexing::IndexRecord;
use plain::report::{what, Report};

use super::calls::Streamed;
use super::{describe, Call, IndexCase};
use crate::case::{op, Case};
use crate::fence::{Held, Place};
use crate::generate::rows::edges::schema_a;
use crate::generate::rows::usual;
use crate::generate::rows::values::{write_row, Taste};
use crate::judge::tables;
use crate::original::indexing::rows_of;
use crate::plan::{inline, lay_out, over, table_of};
use crate::rng::Rng;
use crate::trap;

const ROWS: usize = 300_000;

/// Small values, so that so many rows are not too many bytes.
const SMALL: Taste = Taste { blob_bytes: |rng| rng.below(5), items: |rng| rng.below(3), tag: Rng::below };

/// Rows of two tables in turn.
fn stream() -> Case {
    let mut case = Case { op: op::RUN, ..Case::default() }.with_settings(usual());
    let lists = table_of(&over(17, &[13, 0]));
    let blocks = [schema_a(), lists].map(|plans| lay_out(&plans, &mut case.records, &mut case.names));
    case.references.extend(blocks.map(inline).concat());
    let rng = &mut Rng::new(ROWS as u64);
    for row in 0..ROWS {
        let table = (row % 2) as u16;
        write_row(rng, &SMALL, (table, blocks[row % 2]), &case.records, &mut case.input);
    }
    case
}

/// What a call about a whole index leaves, beside what it has to.
struct Asked<'a> {
    streamed: Streamed<'a>,
    bytes: u64,
    rows: u64,
    right: u64,
}

impl Asked<'_> {
    /// `number` is the refusal's, 0 where there is none.
    fn is_right(
        &mut self,
        words: &str,
        number: u64,
        call: impl FnOnce(&Streamed, &mut [u8]) -> u32,
    ) -> Result<(), String> {
        let what = if number == 0 { what::END } else { what::REFUSAL };
        let report = Report { what, number, rows: self.rows, bytes: self.bytes, ..Report::default() };
        let (mut wanted, mut answer) = ([0; 88], [0; 88]);
        report.write_to(&mut wanted);
        let returned = call(&self.streamed, &mut answer);
        self.right += 1;
        if (u64::from(returned), answer) == (number, wanted) {
            return Ok(());
        }
        Err(format!("{words}\n  library: returned {returned}, {answer:02x?}\n  wanted: {wanted:02x?}"))
    }
}

fn same_bytes(words: &str, got: &[u8], wanted: &[u8]) -> Result<(), String> {
    match got.iter().zip(wanted).position(|(got, wanted)| got != wanted) {
        None if got.len() == wanted.len() => Ok(()),
        at => Err(format!("{words}: the index differs from byte {at:?} on")),
    }
}

fn whole_indexes(asked: &mut Asked, whole: &[u8]) -> Result<(), String> {
    let fresh = |bytes: usize| Held::new(&vec![0xA5; bytes], Place::End);
    let mut index = fresh(whole.len());
    asked.is_right("build", 0, |streamed, answer| streamed.build_index(&mut index, answer))?;
    same_bytes("build", &index, whole)?;
    asked.is_right("check", 0, |streamed, answer| streamed.check_index(&index, answer))?;
    let mut short = fresh(whole.len() - 1);
    asked.is_right("build, a byte short", 30, |streamed, answer| streamed.build_index(&mut short, answer))?;
    same_bytes("build, a byte short", &short, &vec![0xA5; short.len()])?;
    for at in [0, whole.len() / 2 + 5, whole.len() - 1] {
        index[at] ^= 1;
        let words = format!("check with byte {at} changed");
        asked.is_right(&words, 31, |streamed, answer| streamed.check_index(&index, answer))?;
        index[at] ^= 1;
    }
    for old in [0, 1, ROWS / 2, ROWS - 1, ROWS] {
        let mut index = fresh(whole.len() + 16);
        index[..16 * old].copy_from_slice(&whole[..16 * old]);
        let words = format!("extend from {old}");
        let call =
            |streamed: &Streamed, answer: &mut [u8]| streamed.extend_index(old as u64, &mut index, answer);
        asked.is_right(&words, 0, call)?;
        same_bytes(&words, &index, &[whole, &[0xA5; 16]].concat())?;
        if old > 0 {
            index[16 * old - 1] ^= 1;
            let before = index.to_vec();
            let call = |streamed: &Streamed, answer: &mut [u8]| {
                streamed.extend_index(old as u64, &mut index, answer)
            };
            asked.is_right(&format!("{words}, the last wrong"), 31, call)?;
            same_bytes(&words, &index, &before)?;
        }
    }
    Ok(())
}

/// Rows here and there, as the plain reading decodes them where the original says that they are.
fn some_rows(case: &Case, streamed: &Streamed, rows: &[IndexRecord], whole: &[u8]) -> Result<u64, String> {
    let mut right = 0;
    for n in (0..ROWS).step_by(997).chain([ROWS - 1]) {
        let [mut records, mut payload] = [vec![0xA5; 256], vec![0x5A; 256]];
        let (mut own_records, mut own_payload) = (records.clone(), payload.clone());
        let done = decode(
            &case.settings(),
            &tables(case),
            &case.input,
            rows[n].offset,
            &mut own_records,
            &mut own_payload,
        );
        let (mut wanted, mut answer) = ([0; 88], [0; 88]);
        let number = Report::of_skip(&done).write_to(&mut wanted);
        let returned = streamed.decode_indexed(whole, n as u64, [&mut records, &mut payload], &mut answer);
        if (returned, answer, &records, &payload) != (number, wanted, &own_records, &own_payload) {
            return Err(format!(
                "row {n}\n  library: returned {returned}, {answer:02x?}\n  wanted: {wanted:02x?}"
            ));
        }
        right += 1;
    }
    Ok(right)
}

/// How many calls were right, or the first that was not.
pub fn check() -> Result<u64, String> {
    let case = stream();
    let rows = rows_of(&case);
    let whole: Vec<u8> = rows.iter().flat_map(IndexRecord::in_bytes).collect();
    let slices = case.strings().map(|string| Held::new(string, Place::End));
    let streamed = Streamed { settings: case.settings(), slices: slices.each_ref().map(|held| &**held) };
    let bytes = case.input.len() as u64;
    let told = || {
        let (stream, index) = (Case { input: Vec::new(), ..case.clone() }, Vec::new());
        let format = describe(&IndexCase { call: Call::Build, stream, index, number: 0, lent: [0, 0] });
        format!("a stream of {ROWS} rows, whose format is that of\n{format}")
    };
    trap::while_asked(&told, || {
        let mut asked = Asked { streamed, bytes, rows: ROWS as u64, right: 0 };
        whole_indexes(&mut asked, &whole)?;
        Ok(asked.right + some_rows(&case, &streamed, &rows, &whole)?)
    })
    .map_err(|why: String| format!("{why}\n{}", told()))
}
