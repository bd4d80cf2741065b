//! Names are UTF-8: one string judged by the library, and which name of a format or a schema it is that was refused.

use std::fmt;
use std::str::from_utf8;

use crate::report::Report;
use crate::{sys, Format, Refusal, SchemaBlock, TableRef};

/// Whether a string may be a name: well-formed UTF-8 by the Unicode Standard, else [`Refusal::NameNotUtf8`]. An empty
/// string is, and so are U+0000, noncharacters and a leading U+FEFF.
///
/// ```
/// use skiff::{check_name, Refusal};
///
/// assert_eq!(check_name("Имя"), Ok(()));
/// assert_eq!(check_name(""), Ok(()));
/// // An overlong form, a surrogate, a number above U+10FFFF, a cut character.
/// for bytes in [&b"\xC0\x80"[..], b"\xED\xA0\x80", b"\xF4\x90\x80\x80", b"\xC3"] {
///     assert_eq!(check_name(bytes), Err(Refusal::NameNotUtf8));
/// }
/// ```
// Compiled where it is called, so that a program without it links with an archive that has no such function.
#[inline]
pub fn check_name(name: impl AsRef<[u8]>) -> Result<(), Refusal> {
    Report::of(|answer| sys::check_name(name.as_ref(), answer)).accepted()
}

/// What a name is of. Schemas of the registry and tables are counted from 0; a record is that of the whole record
/// table, as in the places of refusals.
#[derive(Debug, Clone, Copy, PartialEq, Eq, Hash)]
pub enum NameOf {
    /// A schema of the registry.
    Registered {
        /// Which one.
        entry: usize,
    },
    /// A node of a schema of the registry.
    RegisteredNode {
        /// Which schema.
        entry: usize,
        /// The node's record.
        record: u64,
    },
    /// A node of a table's own schema.
    TableNode {
        /// Which table.
        table: usize,
        /// The node's record.
        record: u64,
    },
    /// What a table refers to in the registry, whether that is there or not.
    Reference {
        /// Which table.
        table: usize,
    },
    /// A node of a schema that stands by itself.
    Node {
        /// The node's record.
        record: u64,
    },
}

/// A name that is not UTF-8: what it is of, and its bytes. [`Refusal::NameNotUtf8`] carries none of it; this is told by
/// the standard library, which knows the same strings.
///
/// It shows itself as `table 0, schema record 1: name "id\xd5", not UTF-8 from byte 2 on: d5`.
#[derive(Debug, Clone, Copy, PartialEq, Eq, Hash)]
pub struct BadName<'a> {
    /// What it is the name of.
    pub of: NameOf,
    /// All of its bytes.
    pub bytes: &'a [u8],
}

impl<'a> BadName<'a> {
    /// The name, where it is bad.
    fn of(of: NameOf, bytes: &'a [u8]) -> Option<Self> {
        from_utf8(bytes).is_err().then_some(Self { of, bytes })
    }

    /// How many bytes at its start are UTF-8.
    pub fn valid_up_to(&self) -> usize {
        from_utf8(self.bytes).map_or_else(|error| error.valid_up_to(), str::len)
    }
}

/// No more bytes of a name are shown, and of those that are no text no more in hex.
const MOST_SHOWN: usize = 80;
const MOST_IN_HEX: usize = 16;

fn shown(bytes: &[u8], most: usize) -> (&[u8], &'static str) {
    match bytes.get(..most) {
        Some(first) if first.len() < bytes.len() => (first, ".."),
        _ => (bytes, ""),
    }
}

impl fmt::Display for NameOf {
    fn fmt(&self, out: &mut fmt::Formatter<'_>) -> fmt::Result {
        match self {
            Self::Registered { entry } => write!(out, "registry schema {entry}"),
            Self::RegisteredNode { entry, record } => {
                write!(out, "registry schema {entry}, schema record {record}")
            }
            Self::TableNode { table, record } => write!(out, "table {table}, schema record {record}"),
            Self::Reference { table } => write!(out, "table {table}, reference"),
            Self::Node { record } => write!(out, "schema record {record}"),
        }
    }
}

impl fmt::Display for BadName<'_> {
    fn fmt(&self, out: &mut fmt::Formatter<'_>) -> fmt::Result {
        let (name, more) = shown(self.bytes, MOST_SHOWN);
        let from = self.valid_up_to();
        write!(out, "{}: name \"{}{more}\", not UTF-8 from byte {from} on:", self.of, name.escape_ascii())?;
        let (bytes, more) = shown(&self.bytes[from..], MOST_IN_HEX);
        bytes.iter().try_for_each(|byte| write!(out, " {byte:02x}"))?;
        out.write_str(more)
    }
}

impl<'a> SchemaBlock<'a> {
    /// The first node whose name is not UTF-8, in the order of the records; of a block that is refused by
    /// [`Refusal::NameNotUtf8`] there is one.
    ///
    /// ```
    /// use skiff::{Refusal, Schema, WireType};
    ///
    /// let tables = Schema::tuple([Schema::leaf(WireType::Int64).named(b"id\xD5")]).tables()?;
    /// assert_eq!(tables.block().check(), Err(Refusal::NameNotUtf8));
    /// let bad = tables.block().bad_name().expect("there is one");
    /// assert_eq!(bad.to_string(), r#"schema record 1: name "id\xd5", not UTF-8 from byte 2 on: d5"#);
    /// # Ok::<(), skiff::NameTooLong>(())
    /// ```
    pub fn bad_name(&self) -> Option<BadName<'a>> {
        self.bad_node(|record| NameOf::Node { record })
    }

    fn bad_node(&self, of: impl Fn(u64) -> NameOf) -> Option<BadName<'a>> {
        let nodes =
            (0..self.count).map_while(|index| Some((index, self.node(usize::try_from(index).ok()?)?)));
        let mut named = nodes.filter_map(|(index, node)| Some((self.first.checked_add(index)?, node.name?)));
        named.find_map(|(record, name)| BadName::of(of(record), name))
    }
}

impl<'a> Format<'a> {
    /// The first name in use that is not UTF-8: each schema of the registry, its own name and then those of its nodes;
    /// then table by table the names of its own schema's nodes, or the one that it refers to. Of a format that is
    /// refused by [`Refusal::NameNotUtf8`] there is one.
    ///
    /// ```
    /// use skiff::{FormatBuilder, NameOf, Refusal, Schema, WireType};
    ///
    /// // NAME in EBCDIC.
    /// let column = Schema::leaf(WireType::Int64).named(b"\xD5\xC1\xD4\xC5");
    /// let tables = FormatBuilder::new().table(Schema::tuple([column])).build()?;
    /// assert_eq!(tables.format().check(), Err(Refusal::NameNotUtf8));
    /// let bad = tables.format().bad_name().expect("there is one");
    /// assert_eq!((bad.of, bad.bytes), (NameOf::TableNode { table: 0, record: 1 }, &b"\xD5\xC1\xD4\xC5"[..]));
    /// # Ok::<(), skiff::NameTooLong>(())
    /// ```
    pub fn bad_name(&self) -> Option<BadName<'a>> {
        let mut registered = (0..).zip(self.registered());
        let in_registry = registered.find_map(|(entry, (name, block))| {
            let own = BadName::of(NameOf::Registered { entry }, name);
            own.or_else(|| block.bad_node(|record| NameOf::RegisteredNode { entry, record }))
        });
        in_registry.or_else(|| {
            let mut tables = (0..).zip(self.table_refs());
            tables.find_map(|(table, reference)| match reference {
                TableRef::Inline(block) => block.bad_node(|record| NameOf::TableNode { table, record }),
                TableRef::Registry(name) => BadName::of(NameOf::Reference { table }, name),
            })
        })
    }
}
