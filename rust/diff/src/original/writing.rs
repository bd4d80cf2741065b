//! Rows as the original writes them: the values of a flat table as its tree, handed to its `Encoder`.

use oracle::{CodecError, Decoder, Encoder, Format, SchemaRef, Value, Variant};
use plain::answer::number::BAD_VALUE_TABLE;
use plain::decoding::ValueTable;

use super::rows::{blob_limit, flatten};
use super::{code, laid, refused, tree};
use crate::case::Case;
use crate::judge::lone_block;
use crate::writing::WriteCase;

/// Number and carried values of a refusal, or the row's bytes.
#[derive(Debug, Clone, PartialEq, Eq)]
pub enum Wrote {
    Row(Vec<u8>),
    Refused(u64, [u64; 3]),
}

/// What a value's kind is called, in the order of the kinds.
const KINDS: [&str; 18] = [
    "nothing",
    "boolean",
    "int8",
    "int16",
    "int32",
    "int64",
    "int128",
    "int256",
    "uint8",
    "uint16",
    "uint32",
    "uint64",
    "double",
    "string32",
    "yson32",
    "variant",
    "repeated variant",
    "tuple",
];

/// Asks `Encoder::new` and `write`. None where a name is not UTF-8, the schema was laid out from no tree that is not
/// too deep, or it has blobs of both types under different limits.
pub fn write(case: &WriteCase) -> Option<Wrote> {
    write_under(blob_limit(&case.schema)?, case)
}

fn write_under(limit: u64, case: &WriteCase) -> Option<Wrote> {
    let block = lone_block(&case.schema);
    if laid::block_refusal(&case.schema, block).is_some() {
        return None;
    }
    let schema = tree(&case.schema, block, 0)?;
    Some(written(case, schema, limit).unwrap_or_else(|error| refusal(case, error)))
}

/// A table that was laid out from no value is refused after the schema is accepted.
fn written(case: &WriteCase, schema: oracle::Schema, limit: u64) -> Result<Wrote, CodecError> {
    let mut encoder = Encoder::new(Vec::new(), schema)?.with_max_blob_bytes(limit as usize);
    let Some(value) = laid::value(&case.value) else {
        return Ok(Wrote::Refused(BAD_VALUE_TABLE, [0; 3]));
    };
    encoder.write(&value)?;
    encoder.into_inner().map(Wrote::Row)
}

/// What `Encoder::new` says of the schema alone, whatever the limits are; otherwise none as above.
pub fn accepts(schema: &Case) -> Option<Result<(), Wrote>> {
    let case = WriteCase { schema: schema.clone(), ..WriteCase::default() };
    Some(match write_under(0, &case)? {
        // There is no value, and that is found out when the schema is accepted.
        Wrote::Refused(BAD_VALUE_TABLE, _) => Ok(()),
        refused => Err(refused),
    })
}

fn refusal(case: &WriteCase, error: CodecError) -> Wrote {
    match error {
        CodecError::InvalidSchema(error) => {
            let said = refused(&case.schema, error);
            Wrote::Refused(said.number, said.values)
        }
        CodecError::TableSchemaMustBeTuple { found } => Wrote::Refused(9, [code(found), 0, 0]),
        CodecError::BlobTooLarge { wire_type, length, limit } => {
            Wrote::Refused(14, [code(wire_type), length as u64, limit as u64])
        }
        CodecError::ValueDoesNotMatchSchema { expected, actual } => {
            let kind = KINDS.iter().position(|known| *known == actual).expect("a kind of the original");
            Wrote::Refused(15, [code(expected), kind as u64, 0])
        }
        CodecError::TupleLength { expected, actual } => {
            Wrote::Refused(16, [expected as u64, actual as u64, 0])
        }
        CodecError::InvalidVariantTag { wire_type, tag, children } => {
            Wrote::Refused(17, [code(wire_type), u64::from(tag), children as u64])
        }
        other => panic!("no answer of an encoder over a Vec: {other}"),
    }
}

/// The value that begins at the next record; none where it is none, or has more levels than this.
pub fn next_value(left: &mut std::slice::Iter<&[u8]>, payload: &[u8], levels: usize) -> Option<Value> {
    let record = *left.next()?;
    let below = levels.checked_sub(1)?;
    let data: [u8; 8] = record.get(8..)?.try_into().ok()?;
    let [b0, b1, b2, b3, ..] = data;
    let size = u32::from_le_bytes(record[4..8].try_into().ok()?) as usize;
    let stored = || {
        let start = usize::try_from(u64::from_le_bytes(data)).ok()?;
        payload.get(start..start.checked_add(size)?)
    };
    Some(match record[0] {
        0 => Value::Nothing,
        1 => Value::Boolean(b0 == 1),
        2 => Value::Int8(i8::from_le_bytes([b0])),
        3 => Value::Int16(i16::from_le_bytes([b0, b1])),
        4 => Value::Int32(i32::from_le_bytes([b0, b1, b2, b3])),
        5 => Value::Int64(i64::from_le_bytes(data)),
        6 => Value::Int128(i128::from_le_bytes(stored()?.try_into().ok()?)),
        7 => Value::Int256(stored()?.try_into().ok()?),
        8 => Value::Uint8(b0),
        9 => Value::Uint16(u16::from_le_bytes([b0, b1])),
        10 => Value::Uint32(u32::from_le_bytes([b0, b1, b2, b3])),
        11 => Value::Uint64(u64::from_le_bytes(data)),
        12 => Value::Double(f64::from_bits(u64::from_le_bytes(data))),
        13 => Value::Bytes(stored()?.to_vec()),
        14 => Value::Yson(stored()?.to_vec()),
        15 => {
            let tag = next_tag(left)?;
            Value::Variant { tag, value: Box::new(next_value(left, payload, below)?) }
        }
        16 => {
            let items = (0..size).map(|_| {
                let tag = next_tag(left)?;
                Some(Variant { tag, value: next_value(left, payload, below)? })
            });
            Value::RepeatedVariants(items.collect::<Option<_>>()?)
        }
        17 => Value::Tuple((0..size).map(|_| next_value(left, payload, below)).collect::<Option<_>>()?),
        _ => return None,
    })
}

/// The tag of the record that comes next.
fn next_tag(left: &std::slice::Iter<&[u8]>) -> Option<u16> {
    let record = left.as_slice().first()?;
    Some(u16::from_le_bytes(record.get(2..4)?.try_into().ok()?))
}

/// What the original reads of a row that was accepted: the flat table of its value, if it is a row of
/// table 0 and nothing is left of the bytes.
pub fn read_back(case: &WriteCase, bytes: &[u8]) -> Option<ValueTable> {
    let schema = tree(&case.schema, lone_block(&case.schema), 0)?;
    let format = Format::new(vec![SchemaRef::Inline(schema)]).expect("the encoder took this schema");
    let mut rest = bytes;
    let mut decoder = Decoder::new(&mut rest, format)
        .with_max_blob_bytes(blob_limit(&case.schema)? as usize)
        .with_max_row_bytes(usize::MAX);
    let (table, row) = decoder.next_row().ok()??;
    let mut flat = ValueTable::default();
    flatten(&row, 0, &mut flat);
    (table == 0 && rest.is_empty()).then_some(flat)
}
