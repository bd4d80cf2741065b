//! What the original answers to a case, on demand 2's domain: calls that are not to be answered 1, 2 or 3,
//! with UTF-8 names, one limit for blobs and, where rows are read, its own node charge; and beyond it where two limits
//! differ, but blobs of one type can't occur. Which those are is told by [`laid`] and [`blob_limit`], never by the
//! plain reading. The original knows no places, so it is compared in number and carried values, in what it accepts,
//! and in a run's rows and bytes.

pub mod indexing;
pub mod laid;
mod rows;
pub mod views;
pub mod writing;

pub use rows::{blob_limit, node_charge};

use std::collections::BTreeMap;
use std::fmt;

use oracle::{CodecError, Encoder, Format, Schema, SchemaError, SchemaRef, WireType};
use plain::answer::number::{NO_NODE_ROOM, NO_OUTPUT_ROOM, NO_PAYLOAD_ROOM};
use plain::decoding::ValueTable;
use plain::tables::{entries, record_count, references, schema_record, Block, Reference, Span};
use plain::value_table::{value, Said as Scalar};

use crate::case::{op, Answer, Case, UNTOUCHED};
use crate::indexing::IndexCase;
use crate::judge::lone_block;
use crate::writing::WriteCase;
use views::View;
use writing::Wrote;

/// The original's types in document 01's code order.
const TYPES: [WireType; 20] = [
    WireType::Nothing,
    WireType::Boolean,
    WireType::Int8,
    WireType::Int16,
    WireType::Int32,
    WireType::Int64,
    WireType::Int128,
    WireType::Int256,
    WireType::Uint8,
    WireType::Uint16,
    WireType::Uint32,
    WireType::Uint64,
    WireType::Double,
    WireType::String32,
    WireType::Yson32,
    WireType::Variant8,
    WireType::Variant16,
    WireType::RepeatedVariant8,
    WireType::RepeatedVariant16,
    WireType::Tuple,
];

fn code(wire_type: WireType) -> u64 {
    TYPES.iter().position(|known| *known == wire_type).expect("all twenty are listed") as u64
}

/// Number and carried values; the table of a row; a run's rows and bytes; what a decoded row is, each value in it
/// and each node; what was written of a value, and where it has to stand; all that both slices of row n have to hold.
#[derive(Debug, Clone, PartialEq, Eq)]
pub struct Said {
    pub number: u64,
    pub table: Option<u64>,
    pub values: [u64; 3],
    pub run: Option<[u64; 2]>,
    pub row: Option<ValueTable>,
    pub scalars: Vec<Scalar>,
    pub views: Vec<View>,
    pub wrote: Option<(u64, Vec<u8>)>,
    pub lent: Option<[Vec<u8>; 2]>,
}

impl Said {
    /// The plain reading's value query tells just these values, record by record, and its row view these nodes.
    fn is_told(&self, row: &ValueTable) -> bool {
        let told = (0..record_count(&row.records)).map(|index| value(&row.records, index));
        told.eq(self.scalars.iter().map(|scalar| Ok(*scalar)))
            && self.views.len() == self.scalars.len()
            && views::are_told(&self.views, &row.records)
    }

    fn new(number: u64, values: [u64; 3]) -> Self {
        let (scalars, views) = (Vec::new(), Vec::new());
        Self { number, table: None, values, run: None, row: None, scalars, views, wrote: None, lent: None }
    }

    fn accepted() -> Self {
        Self::new(0, [0; 3])
    }

    pub fn agrees_with(&self, answer: &Answer) -> bool {
        let [bytes, records, payload] = self.values;
        if let (Some((position, _)), NO_OUTPUT_ROOM) = (&self.wrote, answer.number) {
            return answer.values == [bytes, 0, 0] && answer.place == *position;
        }
        match (&self.row, answer.number) {
            // The original takes the room that it needs, and that is what has to be asked for.
            (Some(_), NO_NODE_ROOM) => answer.values == [records, 0, 0],
            (Some(_), NO_PAYLOAD_ROOM) => answer.values == [payload, 0, 0],
            (row, number) => {
                self.number == number
                    && self.table.is_none_or(|table| table == answer.place)
                    && self.values == answer.values
                    && self.run == answer.run
                    && row.as_ref().is_none_or(|row| stands_in(row, answer) && self.is_told(row))
                    && self.wrote.as_ref().is_none_or(|(at, bytes)| stands_at(*at, bytes, answer))
                    && (self.lent.is_none() || self.lent == answer.lent)
            }
        }
    }
}

/// Both lent slices begin with what a row is.
fn stands_in(row: &ValueTable, answer: &Answer) -> bool {
    let begins = |[records, payload]: &[Vec<u8>; 2]| {
        records.starts_with(&row.records) && payload.starts_with(&row.payload)
    };
    answer.lent.as_ref().is_some_and(begins)
}

/// The output has what was written where it has to stand.
fn stands_at(position: u64, bytes: &[u8], answer: &Answer) -> bool {
    let from = |output: &Vec<u8>| output[position as usize..].starts_with(bytes);
    answer.output.as_ref().is_some_and(from)
}

impl fmt::Display for Said {
    fn fmt(&self, formatter: &mut fmt::Formatter<'_>) -> fmt::Result {
        write!(formatter, "number {}, values {:?}", self.number, self.values)?;
        if let Some(table) = self.table {
            write!(formatter, ", table {table}")?;
        }
        if let Some([rows, bytes]) = self.run {
            write!(formatter, ", after {rows} rows of {bytes} bytes")?;
        }
        Ok(())
    }
}

/// Asks the original; none outside its domain.
pub fn ask(case: &Case) -> Option<Said> {
    if laid::refusal(case).is_some() {
        return None;
    }
    match case.op {
        op::PARSE => {
            let name = std::str::from_utf8(&case.names).ok()?;
            Some(found(WireType::parse(name).map(code)))
        }
        op::FIXED_WIDTH => {
            let wire_type = TYPES.get(usize::try_from(case.a).ok()?)?;
            Some(found(wire_type.fixed_width().map(|width| width as u64)))
        }
        op::VALIDATE => {
            let schema = tree(case, lone_block(case), 0)?;
            Some(schema.validate().map_or_else(|error| refused(case, error), |()| Said::accepted()))
        }
        op::ENCODER => {
            let schema = tree(case, lone_block(case), 0)?;
            Some(match Encoder::new(Vec::new(), schema) {
                Ok(_) => Said::accepted(),
                Err(CodecError::TableSchemaMustBeTuple { found }) => Said::new(9, [code(found), 0, 0]),
                Err(CodecError::InvalidSchema(error)) => refused(case, error),
                Err(other) => panic!("no answer of Encoder::new: {other}"),
            })
        }
        op::FORMAT | op::TABLE_SCHEMA => {
            let format = match format(case)? {
                Ok(format) => format,
                Err(error) => return Some(refused(case, error)),
            };
            if case.op == op::FORMAT {
                return Some(Said::accepted());
            }
            Some(match format.table_schema(usize::try_from(case.a).ok()?) {
                Ok(schema) => {
                    let block = block_of(case, &format, schema);
                    Said::new(0, [block.first, block.count, 0])
                }
                Err(error) => refused(case, error),
            })
        }
        op::SKIP | op::RUN => rows::ask(case),
        op::DECODE => rows::decode(case),
        // It has no value tables.
        op::CHECK_TABLE => None,
        op::ENCODE => writing::write(&WriteCase::of(case)).map(|wrote| said(case, wrote)),
        _ if case.is_of_index() => {
            let case = IndexCase::of(case);
            let lent = case.lent.map(|bytes| vec![UNTOUCHED; bytes]);
            indexing::ask(&case, lent).map(|left| indexing::said(case.call, left))
        }
        other => panic!("no such operation: {other}"),
    }
}

/// What it says of a case's format, whatever else the case is; none where that was laid out from no trees.
pub fn ask_format(case: &Case) -> Option<Said> {
    if laid::format_refusal(case).is_some() {
        return None;
    }
    Some(format(case)?.map_or_else(|error| refused(case, error), |_| Said::accepted()))
}

fn said(case: &Case, wrote: Wrote) -> Said {
    match wrote {
        Wrote::Row(bytes) => {
            let values = [bytes.len(), case.references.len() / 16, case.registry.len()];
            let wrote = Some((case.b, bytes));
            Said { table: Some(0), wrote, ..Said::new(0, values.map(|value| value as u64)) }
        }
        Wrote::Refused(number, values) => Said::new(number, values),
    }
}

fn found(value: Option<u64>) -> Said {
    value.map_or(Said::new(255, [0; 3]), |value| Said::new(0, [value, 0, 0]))
}

fn refused(case: &Case, error: SchemaError) -> Said {
    match error {
        SchemaError::UnexpectedChildren { wire_type, count } => {
            Said::new(4, [code(wire_type), count as u64, 0])
        }
        SchemaError::TooManyChildren { wire_type, count, maximum } => {
            Said::new(5, [code(wire_type), count as u64, maximum as u64])
        }
        SchemaError::EmptyTableSchemas => Said::new(6, [0; 3]),
        SchemaError::UnknownRegistryReference(name) => Said::new(7, [first_table_naming(case, &name), 0, 0]),
        SchemaError::TableSchemaRootMustBeTuple { found } => Said::new(8, [code(found), 0, 0]),
        SchemaError::TableSchemaChildMissingName { index } => Said::new(10, [index as u64, 0, 0]),
        SchemaError::MissingTableSchema { index } => Said::new(11, [index as u64, 0, 0]),
        other => panic!("no answer about a schema tree: {other}"),
    }
}

/// The original carries the unknown name and we carry the table: the first that bears that name.
fn first_table_naming(case: &Case, name: &str) -> u64 {
    let found = references(&case.references).iter().position(|reference| {
        reference.kind == Reference::REGISTRY && reference.name().of(&case.names) == name.as_bytes()
    });
    found.expect("the original names one of the tables' references") as u64
}

fn text(case: &Case, span: Span) -> Option<String> {
    String::from_utf8(span.of(&case.names).to_vec()).ok()
}

/// The tree of a formed block below one of its records; none where a name is not UTF-8.
fn tree(case: &Case, block: Block, index: u64) -> Option<Schema> {
    let record = schema_record(&case.records, block.first + index);
    let name = if record.named == 1 { Some(text(case, record.name)?) } else { None };
    let children = record.first_child..record.first_child + record.child_count;
    Some(Schema {
        wire_type: TYPES[usize::from(record.code)],
        name,
        children: children.map(|child| tree(case, block, child)).collect::<Option<_>>()?,
    })
}

/// The format as the original builds and checks it; none where a name is not UTF-8.
pub fn format(case: &Case) -> Option<Result<Format, SchemaError>> {
    let mut tables = Vec::new();
    for reference in references(&case.references) {
        tables.push(if reference.kind == Reference::INLINE {
            SchemaRef::Inline(tree(case, reference.block(), 0)?)
        } else {
            SchemaRef::Registry(text(case, reference.name())?)
        });
    }
    let mut registry = BTreeMap::new();
    for entry in entries(&case.registry) {
        registry.insert(text(case, entry.name)?, tree(case, entry.block, 0)?);
    }
    Some(Format::from_parts(tables, registry))
}

/// Which block a schema of the format came from, told by its address: equal schemas may stand in
/// several blocks.
fn block_of(case: &Case, format: &Format, schema: &Schema) -> Block {
    for (given, reference) in references(&case.references).iter().zip(format.table_schemas()) {
        if matches!(reference, SchemaRef::Inline(inline) if std::ptr::eq(inline, schema)) {
            return given.block();
        }
    }
    // The registry's own order is the map's, since its names ascend.
    for (given, known) in entries(&case.registry).iter().zip(format.schema_registry().values()) {
        if std::ptr::eq(known, schema) {
            return given.block;
        }
    }
    panic!("the original answers with a schema of the format")
}

#[cfg(test)]
mod tests {
    use super::*;
    use crate::generate::rows::edges::{blob_limits, schema_a, FULL};
    use crate::generate::rows::usual;
    use crate::judge::plain_answer;
    use crate::plan::{inline, lay_out, over, table_of};

    /// The row of schema A that has everything: four records and two bytes of payload.
    fn decoding(lent: [usize; 2]) -> Case {
        let mut case = Case { op: op::DECODE, input: FULL.to_vec(), ..Case::default() };
        let block = lay_out(&schema_a(), &mut case.records, &mut case.names);
        case.references.extend(inline(block));
        case.with_settings(usual()).with_lent(lent)
    }

    #[test]
    fn a_decoded_row_is_compared_in_every_byte() {
        let case = decoding([64, 2]);
        let right = plain_answer(&case);
        let said = ask(&case).expect("it is in the domain");
        assert!(said.agrees_with(&right));
        for (slice, bytes) in [64, 2].into_iter().enumerate() {
            for at in 0..bytes {
                let mut wrong = right.clone();
                wrong.lent.as_mut().expect("slices were lent")[slice][at] ^= 1;
                assert!(!said.agrees_with(&wrong), "byte {at} of slice {slice}");
            }
        }
        assert!(!said.agrees_with(&Answer { lent: None, ..right }));
    }

    /// The same value encoded among bytes that stay.
    #[test]
    fn an_encoded_row_is_compared_in_every_byte() {
        let decoded = plain_answer(&decoding([64, 2])).lent.expect("slices were lent");
        let [references, registry] = decoded;
        let case = Case {
            op: op::ENCODE,
            a: 5 << 32,
            b: 3,
            references,
            registry,
            input: vec![0x5C; 20],
            ..decoding([64, 2])
        };
        let right = plain_answer(&case);
        assert_eq!(right.output.as_ref().map(|output| &output[3..13]), Some(&FULL[..]));
        let said = ask(&case).expect("it is in the domain");
        assert!(said.agrees_with(&right));
        for at in 3..13 {
            let mut wrong = right.clone();
            wrong.output.as_mut().expect("there is an output")[at] ^= 1;
            assert!(!said.agrees_with(&wrong), "byte {at}");
        }
        let short = plain_answer(&Case { input: vec![0x5C; 12], ..case.clone() });
        assert_eq!((short.number, short.values), (NO_OUTPUT_ROOM, [10, 0, 0]));
        assert!(said.agrees_with(&short) && !said.agrees_with(&Answer { values: [9, 0, 0], ..short }));
    }

    /// Of two limits it is given the one whose type there is, and is not asked where there are both.
    #[test]
    fn one_limit_stands_for_two_where_a_type_is_missing() {
        let asked = |codes: &[u8], limits: [u64; 2]| {
            let mut case = Case { op: op::RUN, ..Case::default() }.with_settings(blob_limits(limits));
            let block = lay_out(&table_of(&over(19, codes)), &mut case.records, &mut case.names);
            case.references.extend(inline(block));
            assert_eq!(ask(&case).is_some(), blob_limit(&case).is_some());
            blob_limit(&case)
        };
        assert_eq!(asked(&[13, 14], [3, 3]), Some(3));
        assert_eq!(asked(&[13, 14], [2, 3]), None);
        assert_eq!(asked(&[14, 8, 13], [3, 2]), None);
        assert_eq!(asked(&[13, 8], [2, 3]), Some(2));
        assert_eq!(asked(&[8, 14], [2, 3]), Some(3));
        assert!(asked(&[8], [2, 3]).is_some());
    }

    #[test]
    fn room_is_asked_for_by_what_the_original_takes() {
        for lent in [[63, 2], [64, 1]] {
            let case = decoding(lent);
            let right = plain_answer(&case);
            let said = ask(&case).expect("it is in the domain");
            assert!([NO_NODE_ROOM, NO_PAYLOAD_ROOM].contains(&right.number) && said.agrees_with(&right));
            let [need, ..] = right.values;
            assert!(!said.agrees_with(&Answer { values: [need + 1, 0, 0], ..right }));
        }
    }
}
