//! Both round trips of an accepted row, by the plain reading; what it says the others are held to.

use plain::decoding::{decode, ValueTable};
use plain::encoding::{written, Given, Written};
use plain::reading::{Row, Skipped};
use plain::settings::{Settings, MOST};
use plain::tables::FormatTables;

use super::WriteCase;
use crate::case::Case;
use crate::judge::lone_block;
use crate::plan::inline;

/// A row among other bytes, with the format of one table to read it by.
pub struct Stream {
    pub settings: Settings,
    pub references: Vec<u8>,
    pub input: Vec<u8>,
    pub position: u64,
}

impl Stream {
    pub fn tables<'a>(&'a self, case: &'a WriteCase) -> FormatTables<'a> {
        FormatTables {
            records: &case.schema.records,
            names: &case.schema.names,
            references: &self.references,
            registry: &[],
        }
    }
}

/// The stream of a row: bytes before and after it that are no row's, and settings that let it pass. To read it each
/// blob limit has to be no lower than it was to write it: they are higher by as many bytes as stand on either side.
pub fn stream(case: &WriteCase, row: &[u8], before: usize, after: usize) -> Stream {
    let Case { max_string32_bytes, max_yson32_bytes, .. } = case.schema;
    let settings = Settings {
        node_charge: 1,
        max_string32_bytes: MOST.min(max_string32_bytes + before as u64),
        max_yson32_bytes: MOST.min(max_yson32_bytes + after as u64),
        max_row_bytes: MOST,
    };
    let input = [&vec![0x3B; before], row, &vec![0xC3; after]].concat();
    Stream { settings, references: inline(lone_block(&case.schema)).to_vec(), input, position: before as u64 }
}

/// Booleans that are true, with any other byte that reads so.
pub fn loosened(written: &Written, salt: u8) -> Vec<u8> {
    let mut bytes = written.bytes.clone();
    for at in &written.booleans {
        if bytes[*at] == 1 {
            bytes[*at] = (salt.wrapping_add(*at as u8)).max(1);
        }
    }
    bytes
}

/// What was written reads back as the table that it was written of, also with other bytes for true; and
/// what was read is written as the canonical row.
pub fn check(case: &WriteCase, row: &Row, salt: u64) -> Result<(), String> {
    let canonical = written(&case.given()).map_err(|refusal| format!("written again: {refusal:?}"))?;
    let loose = loosened(&canonical, salt as u8);
    for bytes in [&canonical.bytes, &loose] {
        let stream = stream(case, bytes, salt as usize % 5, salt as usize % 3);
        let mut table = ValueTable {
            records: vec![0xA5; row.records as usize * 16],
            payload: vec![0xA5; row.payload as usize],
        };
        let done = decode(
            &stream.settings,
            &stream.tables(case),
            &stream.input,
            stream.position,
            &mut table.records,
            &mut table.payload,
        );
        if done != Ok(Skipped::Row(*row)) {
            return Err(format!("read back: {done:?}, and written: {row:?}"));
        }
        if table != case.value {
            return Err("another value was read back".to_owned());
        }
        let again = Given { value_records: &table.records, payload: &table.payload, ..case.given() };
        if written(&again).as_ref() != Ok(&canonical) {
            return Err("what was read back is written otherwise".to_owned());
        }
    }
    Ok(())
}
