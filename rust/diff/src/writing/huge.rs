//! The writing calls with slices of 4,294,967,295 bytes and of one more: each that is read, and the output.

use plain::encoding::{encode, Given};
use plain::report::Report;
use plain::settings::MOST;
use plain::tables::Block;
use plain::value_table::check as check_table;
use skiff::{sys, SchemaBlock, ValueTable};

use crate::generate::rows::usual;
use crate::generate::writes::draw::{lay_out, Body, Node};
use crate::generate::writes::schema_of;
use crate::in_process::huge::{zeros, BOUND};
use crate::in_process::numbers;
use crate::plan::{table_of, Plan};
use crate::trap;

/// How many calls were right, or the first that was not.
type Right = Result<u64, String>;

/// Of an output only so many bytes at its start and at its end are looked at.
const NEAR: usize = 16;

/// What a call left: its number and its answer, and what is near the output's ends.
#[derive(Debug, PartialEq, Eq)]
struct Left(u32, [u8; 88], Vec<u8>);

fn left(output: &mut [u8], call: impl FnOnce(&mut [u8], &mut [u8]) -> u32) -> Left {
    let bytes = output.len();
    let near = |index: &usize| *index < NEAR || *index + NEAR >= bytes;
    let places: Vec<usize> =
        (0..NEAR.min(bytes)).chain(bytes.saturating_sub(NEAR)..bytes).filter(near).collect();
    places.iter().for_each(|at| output[*at] = 0x5C);
    let mut answer = [0xA5; 88];
    let returned = call(output, &mut answer);
    Left(returned, answer, places.iter().map(|at| output[*at]).collect())
}

fn both(given: &Given, output: &mut [u8], position: u64) -> Right {
    let wanted =
        left(output, |output, answer| Report::of_encoded(&encode(given, output, position)).write_to(answer));
    let Given { records, names, block, value_records, payload, .. } = *given;
    let block = SchemaBlock { records, names, first: block.first, count: block.count };
    let value = ValueTable { records: value_records, payload };
    let settings = numbers(given.settings);
    let got = left(output, |output, answer| sys::encode(settings, &block, &value, output, position, answer));
    let wanted_table =
        left(&mut [], |_, answer| Report::of_checked(&check_table(value_records, payload)).write_to(answer));
    let got_table = left(&mut [], |_, answer| sys::check_value_table(&value, answer));
    if got == wanted && got_table == wanted_table {
        return Ok(2);
    }
    Err(format!("library: {got:02x?} {got_table:02x?}\n  plain: {wanted:02x?} {wanted_table:02x?}"))
}

/// None where there is no room for such slices.
pub fn check() -> Option<Right> {
    let (mut zeros, mut lent) = (zeros()?, zeros()?);
    Some(trap::while_asked(&|| "a slice of 4,294,967,295 bytes or one more".to_owned(), || {
        all(zeros.bytes(), lent.bytes())
    }))
}

fn all(zeros: &[u8], lent: &mut [u8]) -> Right {
    let schema = schema_of(&table_of(&[Plan::new(8, 0)]));
    let column = Node::new(8, Body::Data([7, 0, 0, 0, 0, 0, 0, 0]));
    let value = lay_out(&Node::new(17, Body::Children(vec![column])));
    let given = Given {
        settings: usual(),
        records: &schema.records,
        names: &schema.names,
        block: Block { first: 0, count: 2 },
        value_records: &value.records,
        payload: &[],
    };
    let mut right = 0;
    for bytes in [BOUND, BOUND + 1] {
        let long = &zeros[..bytes];
        for (which, given) in [
            Given { records: long, ..given },
            Given { names: long, ..given },
            Given { value_records: long, ..given },
            Given { payload: long, ..given },
        ]
        .iter()
        .enumerate()
        {
            let told = |message| format!("slice {which} of {bytes} bytes\n  {message}");
            right += both(given, &mut [0; 9], 5).map_err(told)?;
        }
        for position in [0, MOST - 4, MOST - 3, MOST - 2, MOST - 1, MOST, MOST + 1] {
            let told = |message| format!("output of {bytes} bytes, position {position}\n  {message}");
            right += both(&given, &mut lent[..bytes], position).map_err(told)?;
        }
    }
    Ok(right)
}
