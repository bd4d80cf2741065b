//! Why a call was refused.

use std::fmt;

use crate::WireType;

/// What a stream was cut in.
#[derive(Debug, Clone, Copy, PartialEq, Eq, Hash)]
pub enum Context {
    /// A value of a type with a fixed width.
    Fixed(WireType),
    /// The length of a string32 or yson32.
    BlobLength,
    /// The bytes of a string32 or yson32.
    BlobPayload,
    /// The tag of a variant8 or of an element of a repeated_variant8.
    Variant8Tag,
    /// The tag of a variant16 or of an element of a repeated_variant16.
    Variant16Tag,
    /// The tag that begins a row.
    TableTag,
}

impl Context {
    /// The number that [`Refusal::Truncated`] carries for it, 1 to 17.
    pub const fn number(self) -> u64 {
        match self {
            Self::Fixed(wire_type) => wire_type.code() as u64,
            Self::BlobLength => 13,
            Self::BlobPayload => 14,
            Self::Variant8Tag => 15,
            Self::Variant16Tag => 16,
            Self::TableTag => 17,
        }
    }

    /// The context of a number, if it is one.
    pub fn from_number(number: u64) -> Option<Self> {
        Some(match number {
            1..=12 => Self::Fixed(WireType::from_code(number)?),
            13 => Self::BlobLength,
            14 => Self::BlobPayload,
            15 => Self::Variant8Tag,
            16 => Self::Variant16Tag,
            17 => Self::TableTag,
            _ => return None,
        })
    }
}

/// The word that refusals are told with: of a fixed type its name.
impl fmt::Display for Context {
    fn fmt(&self, formatter: &mut fmt::Formatter<'_>) -> fmt::Result {
        formatter.write_str(match self {
            Self::Fixed(wire_type) => wire_type.name(),
            Self::BlobLength => "blob-length",
            Self::BlobPayload => "blob-payload",
            Self::Variant8Tag => "variant8-tag",
            Self::Variant16Tag => "variant16-tag",
            Self::TableTag => "table-tag",
        })
    }
}

/// A case for each of the library's refusal numbers, with what it carries. The place is an offset in the
/// stream for a row, a record number for a schema, a value record in writing; of an index there is none.
///
/// A number that is none of them, as a later library may have, is [`Refusal::Unknown`]: nothing that the
/// library says is lost on the way here.
#[derive(Debug, Clone, Copy, PartialEq, Eq, Hash)]
#[non_exhaustive]
pub enum Refusal {
    /// A setting, a slice's length or a position is outside its bounds.
    Setting,
    /// The flat tables of schemas are not in form.
    BadSchemaTable,
    /// A schema has more than 64 levels.
    TooDeep,
    /// A type that has no children has some.
    UnexpectedChildren {
        /// The type that has no children.
        wire_type: WireType,
        /// How many children it has.
        count: u64,
        /// The schema record.
        place: u64,
    },
    /// A schema record has more children than its type's tags can choose.
    TooManyChildren {
        /// The type.
        wire_type: WireType,
        /// How many children it has.
        count: u64,
        /// How many it may have.
        maximum: u64,
        /// The schema record.
        place: u64,
    },
    /// The format has no tables.
    EmptyTableSchemas,
    /// A table names a schema that is not in the registry.
    UnknownRegistryReference {
        /// The table, from 0.
        table: u64,
        /// The table.
        place: u64,
    },
    /// A table's root is no tuple.
    TableSchemaRootMustBeTuple {
        /// The root's type.
        found: WireType,
        /// The schema record.
        place: u64,
    },
    /// The same of what is written by.
    TableSchemaMustBeTuple {
        /// The root's type.
        found: WireType,
        /// The schema record.
        place: u64,
    },
    /// A table's column has no name.
    TableSchemaChildMissingName {
        /// Which column, from 0.
        index: u64,
        /// The schema record.
        place: u64,
    },
    /// A row is of a table that the format does not have.
    MissingTableSchema {
        /// The table that the row names.
        index: u64,
        /// The offset of the row.
        place: u64,
    },
    /// The stream ends inside a row.
    Truncated {
        /// What was cut.
        context: Context,
        /// The offset of the cut field.
        place: u64,
    },
    /// The row costs more than its limit when a node of it is charged.
    RowTooLarge {
        /// The most that a row may cost.
        limit: u64,
        /// The offset where the node would start.
        place: u64,
    },
    /// A blob is over the limit of its type.
    BlobTooLarge {
        /// string32 or yson32.
        wire_type: WireType,
        /// Its bytes.
        length: u64,
        /// The most bytes that one of this type may have.
        limit: u64,
        /// The offset of the length, or the value record.
        place: u64,
    },
    /// A value is of a kind that can't be written as the schema's type.
    ValueDoesNotMatchSchema {
        /// The schema's type.
        wire_type: WireType,
        /// The value's kind, 0 to 17.
        kind: u64,
        /// The value record.
        place: u64,
    },
    /// A tuple has more or fewer values than the schema's has children.
    TupleLength {
        /// The children of the schema.
        expected: u64,
        /// The values of the tuple.
        actual: u64,
        /// The value record.
        place: u64,
    },
    /// A tag chooses none of the schema's children.
    InvalidVariantTag {
        /// The schema's type.
        wire_type: WireType,
        /// The tag.
        tag: u64,
        /// The children of the schema.
        children: u64,
        /// The offset of the tag, or the value record that bears it.
        place: u64,
    },
    /// The value table is not in form.
    BadValueTable,
    /// The row has more value records than the slice lent for them holds.
    NoNodeRoom {
        /// The records of the whole row.
        needed: u64,
        /// The offset of the row.
        place: u64,
    },
    /// The row has more payload bytes than the slice lent for them.
    NoPayloadRoom {
        /// The payload bytes of the whole row.
        needed: u64,
        /// The offset of the row.
        place: u64,
    },
    /// The output has fewer bytes from the position on than the row, or a slice has fewer than an integer's text.
    NoOutputRoom {
        /// The row's bytes, or the text's.
        needed: u64,
        /// The output position; 0 for a text.
        place: u64,
    },
    /// The stream has more rows than an index slice has room for records. What is answered beside it has the
    /// rows: [`crate::Run::rows`].
    NoIndexRoom,
    /// An index, or the record of one row, is not the stream's.
    IndexMismatch,
    /// The index has no record of that number.
    NoSuchRow,
    /// A name of a format or of a schema is not well-formed UTF-8. [`crate::Format::bad_name`] and
    /// [`crate::SchemaBlock::bad_name`] say which one.
    NameNotUtf8,
    /// A number that this crate does not know, or not with these values.
    Unknown {
        /// The number.
        number: u64,
        /// Its place.
        place: u64,
        /// What it carries.
        carried: [u64; 3],
    },
}

/// The words of the refusals: the number, the name, and what each carried value is. include/check-refusals
/// compares them with the rules' and with the header's.
const WORDS: [(u64, &str, &[&str]); 25] = [
    (1, "Setting", &[]),
    (2, "BadSchemaTable", &[]),
    (3, "TooDeep", &[]),
    (4, "UnexpectedChildren", &["type", "count"]),
    (5, "TooManyChildren", &["type", "count", "maximum"]),
    (6, "EmptyTableSchemas", &[]),
    (7, "UnknownRegistryReference", &["table"]),
    (8, "TableSchemaRootMustBeTuple", &["type"]),
    (9, "TableSchemaMustBeTuple", &["type"]),
    (10, "TableSchemaChildMissingName", &["index"]),
    (11, "MissingTableSchema", &["table"]),
    (12, "Truncated", &["context"]),
    (13, "RowTooLarge", &["limit"]),
    (14, "BlobTooLarge", &["type", "length", "limit"]),
    (15, "ValueDoesNotMatchSchema", &["type", "kind"]),
    (16, "TupleLength", &["expected", "actual"]),
    (17, "InvalidVariantTag", &["type", "tag", "children"]),
    (18, "BadValueTable", &[]),
    (19, "NoNodeRoom", &["needed"]),
    (20, "NoPayloadRoom", &["needed"]),
    (21, "NoOutputRoom", &["needed"]),
    (30, "NoIndexRoom", &[]),
    (31, "IndexMismatch", &[]),
    (32, "NoSuchRow", &[]),
    (33, "NameNotUtf8", &[]),
];

impl Refusal {
    /// The refusal of a number with its place and carried values.
    ///
    /// ```
    /// use skiff::Refusal;
    ///
    /// assert_eq!(Refusal::from_numbers(13, 4, [193, 0, 0]), Refusal::RowTooLarge { limit: 193, place: 4 });
    /// let later = Refusal::from_numbers(99, 4, [1, 2, 3]);
    /// assert_eq!((later.number(), later.place(), later.carried()), (99, 4, [1, 2, 3]));
    /// ```
    // Away from the calls, so that these are small enough to be compiled into their callers.
    #[cold]
    pub fn from_numbers(number: u64, place: u64, carried: [u64; 3]) -> Self {
        let [x, y, z] = carried;
        let wire_type = WireType::from_code(x);
        let known = || {
            Some(match number {
                1 => Self::Setting,
                2 => Self::BadSchemaTable,
                3 => Self::TooDeep,
                4 => Self::UnexpectedChildren { wire_type: wire_type?, count: y, place },
                5 => Self::TooManyChildren { wire_type: wire_type?, count: y, maximum: z, place },
                6 => Self::EmptyTableSchemas,
                7 => Self::UnknownRegistryReference { table: x, place },
                8 => Self::TableSchemaRootMustBeTuple { found: wire_type?, place },
                9 => Self::TableSchemaMustBeTuple { found: wire_type?, place },
                10 => Self::TableSchemaChildMissingName { index: x, place },
                11 => Self::MissingTableSchema { index: x, place },
                12 => Self::Truncated { context: Context::from_number(x)?, place },
                13 => Self::RowTooLarge { limit: x, place },
                14 => Self::BlobTooLarge { wire_type: wire_type?, length: y, limit: z, place },
                15 => Self::ValueDoesNotMatchSchema { wire_type: wire_type?, kind: y, place },
                16 => Self::TupleLength { expected: x, actual: y, place },
                17 => Self::InvalidVariantTag { wire_type: wire_type?, tag: y, children: z, place },
                18 => Self::BadValueTable,
                19 => Self::NoNodeRoom { needed: x, place },
                20 => Self::NoPayloadRoom { needed: x, place },
                21 => Self::NoOutputRoom { needed: x, place },
                30 => Self::NoIndexRoom,
                31 => Self::IndexMismatch,
                32 => Self::NoSuchRow,
                33 => Self::NameNotUtf8,
                _ => return None,
            })
        };
        // A case that can't hold all that was said does not stand for it.
        known().filter(|refusal| refusal.numbers() == (number, place, carried)).unwrap_or(Self::Unknown {
            number,
            place,
            carried,
        })
    }

    /// Number, place and carried values: the other way round.
    pub fn numbers(&self) -> (u64, u64, [u64; 3]) {
        let code = |wire_type: WireType| u64::from(wire_type.code());
        match *self {
            Self::Setting => (1, 0, [0; 3]),
            Self::BadSchemaTable => (2, 0, [0; 3]),
            Self::TooDeep => (3, 0, [0; 3]),
            Self::UnexpectedChildren { wire_type, count, place } => (4, place, [code(wire_type), count, 0]),
            Self::TooManyChildren { wire_type, count, maximum, place } => {
                (5, place, [code(wire_type), count, maximum])
            }
            Self::EmptyTableSchemas => (6, 0, [0; 3]),
            Self::UnknownRegistryReference { table, place } => (7, place, [table, 0, 0]),
            Self::TableSchemaRootMustBeTuple { found, place } => (8, place, [code(found), 0, 0]),
            Self::TableSchemaMustBeTuple { found, place } => (9, place, [code(found), 0, 0]),
            Self::TableSchemaChildMissingName { index, place } => (10, place, [index, 0, 0]),
            Self::MissingTableSchema { index, place } => (11, place, [index, 0, 0]),
            Self::Truncated { context, place } => (12, place, [context.number(), 0, 0]),
            Self::RowTooLarge { limit, place } => (13, place, [limit, 0, 0]),
            Self::BlobTooLarge { wire_type, length, limit, place } => {
                (14, place, [code(wire_type), length, limit])
            }
            Self::ValueDoesNotMatchSchema { wire_type, kind, place } => {
                (15, place, [code(wire_type), kind, 0])
            }
            Self::TupleLength { expected, actual, place } => (16, place, [expected, actual, 0]),
            Self::InvalidVariantTag { wire_type, tag, children, place } => {
                (17, place, [code(wire_type), tag, children])
            }
            Self::BadValueTable => (18, 0, [0; 3]),
            Self::NoNodeRoom { needed, place } => (19, place, [needed, 0, 0]),
            Self::NoPayloadRoom { needed, place } => (20, place, [needed, 0, 0]),
            Self::NoOutputRoom { needed, place } => (21, place, [needed, 0, 0]),
            Self::NoIndexRoom => (30, 0, [0; 3]),
            Self::IndexMismatch => (31, 0, [0; 3]),
            Self::NoSuchRow => (32, 0, [0; 3]),
            Self::NameNotUtf8 => (33, 0, [0; 3]),
            Self::Unknown { number, place, carried } => (number, place, carried),
        }
    }

    /// The number that the rules have for it, or that of an unknown one.
    pub fn number(&self) -> u64 {
        self.numbers().0
    }

    /// The values that it carries, in the order of the rules, and zeros after them; a type by its wire code,
    /// a context by its number.
    pub fn carried(&self) -> [u64; 3] {
        self.numbers().2
    }

    /// The name that the rules have for the number.
    pub fn name(&self) -> &'static str {
        self.words().0
    }

    /// Where it was met; 0 for refusals that have no place.
    pub fn place(&self) -> u64 {
        self.numbers().1
    }

    fn words(&self) -> (&'static str, &'static [&'static str]) {
        let number = self.number();
        match WORDS.iter().find(|words| words.0 == number) {
            Some((_, name, labels)) if !matches!(self, Self::Unknown { .. }) => (name, labels),
            _ => ("Unknown", &["first", "second", "third"]),
        }
    }

    /// The same of a stream whose window begins so many bytes on: a place in reading is then that much later,
    /// where it is an offset.
    pub(crate) fn moved(self, by: u64) -> Self {
        let (number, place, carried) = self.numbers();
        if self.is_at_an_offset() {
            Self::from_numbers(number, place + by, carried)
        } else {
            self
        }
    }

    /// Whether its place, in reading, is an offset in the stream.
    pub(crate) fn is_at_an_offset(&self) -> bool {
        matches!(self.number(), 11..=14 | 17 | 19 | 20)
    }
}

/// `refused NUMBER NAME (what it carries) at PLACE`, as the delivery program and include/skiff_words.h
/// have it.
impl fmt::Display for Refusal {
    fn fmt(&self, out: &mut fmt::Formatter<'_>) -> fmt::Result {
        let (number, place, carried) = self.numbers();
        let (name, labels) = self.words();
        write!(out, "refused {number} {name}")?;
        for (index, (label, value)) in labels.iter().zip(carried).enumerate() {
            write!(out, "{}{label} {value}", if index == 0 { " (" } else { ", " })?;
            match (*label, WireType::from_code(value), Context::from_number(value)) {
                ("type", Some(wire_type), _) => write!(out, " {wire_type}")?,
                ("context", _, Some(context)) => write!(out, " {context}")?,
                _ => {}
            }
        }
        write!(out, "{} at {place}", if labels.is_empty() { "" } else { ")" })
    }
}

impl std::error::Error for Refusal {}

#[cfg(test)]
mod tests {
    use super::*;

    const WITHOUT_PLACE: [u64; 9] = [1, 2, 3, 6, 18, 30, 31, 32, 33];

    /// One of each. Wire code 3 is also a context. A refusal that carries less has zeros, and one without a
    /// place 0.
    fn samples() -> impl Iterator<Item = (u64, &'static str, Refusal)> {
        WORDS.iter().map(|&(number, name, labels)| {
            let carried =
                std::array::from_fn(|index| if index < labels.len() { [3, 80, 90][index] } else { 0 });
            let place = if WITHOUT_PLACE.contains(&number) { 0 } else { 70 };
            (number, name, Refusal::from_numbers(number, place, carried))
        })
    }

    #[test]
    fn numbers_and_refusals_are_one() {
        let mut messages = std::collections::BTreeSet::new();
        for (number, name, refusal) in samples() {
            assert_eq!((refusal.number(), refusal.name()), (number, name));
            assert!(!matches!(refusal, Refusal::Unknown { .. }));
            let (_, place, carried) = refusal.numbers();
            assert_eq!((refusal.place(), refusal.carried()), (place, carried));
            assert_eq!(Refusal::from_numbers(number, place, carried), refusal);
            assert!(messages.insert(refusal.to_string()));
            assert!(format!("{refusal:?}").starts_with(refusal.name()));
        }
        assert_eq!(messages.len(), WORDS.len());
    }

    #[test]
    fn an_unknown_number_is_a_value() {
        let all = [(0, 0, [0; 3]), (22, 1, [2, 3, 4]), (u64::MAX, u64::MAX, [u64::MAX; 3])];
        // Known numbers with a type or a context that is none, or with more than they carry.
        let more = [
            (4, 0, [20, 0, 0]),
            (12, 0, [0, 0, 0]),
            (12, 0, [18, 0, 0]),
            (1, 5, [0; 3]),
            (13, 0, [1, 1, 0]),
            (30, 1, [0; 3]),
            (31, 0, [1, 0, 0]),
            (33, 2, [0; 3]),
            (33, 0, [2, 0, 0]),
        ];
        for (number, place, carried) in all.into_iter().chain(more) {
            let refusal = Refusal::from_numbers(number, place, carried);
            assert_eq!(refusal, Refusal::Unknown { number, place, carried });
            assert_eq!(refusal.numbers(), (number, place, carried));
        }
        let words = Refusal::from_numbers(22, 1, [2, 3, 4]).to_string();
        assert_eq!(words, "refused 22 Unknown (first 2, second 3, third 4) at 1");
    }

    #[test]
    fn a_window_moves_offsets_alone() {
        for (number, _, refusal) in samples() {
            let offset = [11, 12, 13, 14, 17, 19, 20].contains(&number);
            let moved = refusal.moved(1000);
            assert_eq!(moved.place(), refusal.place() + if offset { 1000 } else { 0 });
            assert_eq!(moved.carried(), refusal.carried());
        }
    }

    #[test]
    fn words_are_those_of_the_delivery_program() {
        let words = |number, carried| Refusal::from_numbers(number, 7, carried).to_string();
        assert_eq!(Refusal::Setting.to_string(), "refused 1 Setting at 0");
        assert_eq!(
            words(5, [15, 257, 256]),
            "refused 5 TooManyChildren (type 15 variant8, count 257, maximum 256) at 7"
        );
        assert_eq!(words(12, [15, 0, 0]), "refused 12 Truncated (context 15 variant8-tag) at 7");
        assert_eq!(words(12, [8, 0, 0]), "refused 12 Truncated (context 8 uint8) at 7");
        assert_eq!(words(16, [2, 3, 0]), "refused 16 TupleLength (expected 2, actual 3) at 7");
        assert_eq!(Refusal::NoSuchRow.to_string(), "refused 32 NoSuchRow at 0");
        assert_eq!(Refusal::NameNotUtf8.to_string(), "refused 33 NameNotUtf8 at 0");
        assert_eq!(words(1, [0; 3]), "refused 1 Unknown (first 0, second 0, third 0) at 7");
    }

    #[test]
    fn contexts_are_1_to_17() {
        for number in 1..=17 {
            assert_eq!(Context::from_number(number).map(Context::number), Some(number));
        }
    }
}
