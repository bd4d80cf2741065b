//! Flat tables from trees, for hosts that think in trees.

use std::collections::{BTreeMap, VecDeque};
use std::fmt;

use crate::sys::SCHEMA_RECORD_BYTES;
use crate::{Format, SchemaBlock, WireType};

/// One node of a schema. Nothing is checked here: the calls that read or write by it check it.
///
/// ```
/// use skiff::{Schema, WireType};
///
/// let page = Schema::leaf(WireType::Uint8).named("page");
/// let name = Schema::leaf(WireType::String32).named("name").optional();
/// let tables = Schema::tuple([page, name]).tables()?;
/// assert_eq!(tables.block().check(), Ok(()));
/// assert!(tables.block().columns().eq([b"page", b"name"]));
/// # Ok::<(), skiff::NameTooLong>(())
/// ```
#[derive(Debug, Clone, PartialEq, Eq)]
pub struct Schema {
    /// How it is written on the wire.
    pub wire_type: WireType,
    /// UTF-8, which the calls that read or write by it check; a table's columns need one.
    pub name: Option<Vec<u8>>,
    /// What stands below it.
    pub children: Vec<Schema>,
}

impl Schema {
    /// A node without a name.
    pub fn node(wire_type: WireType, children: impl IntoIterator<Item = Schema>) -> Self {
        Self { wire_type, name: None, children: children.into_iter().collect() }
    }

    /// A node without children.
    pub fn leaf(wire_type: WireType) -> Self {
        Self::node(wire_type, [])
    }

    /// A tuple: what a table's root is.
    pub fn tuple(children: impl IntoIterator<Item = Schema>) -> Self {
        Self::node(WireType::Tuple, children)
    }

    /// The same with a name.
    #[must_use]
    pub fn named(self, name: impl Into<Vec<u8>>) -> Self {
        Self { name: Some(name.into()), ..self }
    }

    /// A column that may be missing: a variant8 of nothing and this. The name moves to the variant,
    /// which is then the column.
    #[must_use]
    pub fn optional(mut self) -> Self {
        let name = self.name.take();
        let children = [Self::leaf(WireType::Nothing), self];
        Self { name, ..Self::node(WireType::Variant8, children) }
    }

    /// This schema alone as flat tables, for an [`crate::Encoder`].
    pub fn tables(&self) -> Result<SchemaTables, NameTooLong> {
        let mut made = FormatTables::default();
        made.add_block(self)?;
        Ok(SchemaTables { records: made.records, names: made.names })
    }
}

/// One schema's two tables.
#[derive(Debug, Clone, PartialEq, Eq)]
pub struct SchemaTables {
    /// Schema records, 16 bytes each, in level order.
    pub records: Vec<u8>,
    /// The store that names lie in.
    pub names: Vec<u8>,
}

impl SchemaTables {
    /// All records of the table.
    pub fn block(&self) -> SchemaBlock<'_> {
        let count = (self.records.len() / SCHEMA_RECORD_BYTES) as u64;
        SchemaBlock { records: &self.records, names: &self.names, first: 0, count }
    }
}

impl<'a> From<&'a SchemaTables> for SchemaBlock<'a> {
    fn from(tables: &'a SchemaTables) -> Self {
        tables.block()
    }
}

/// A node's name has more than 65,535 bytes, or all names together more than 4,294,967,295: the
/// records have no room for such numbers.
#[derive(Debug, Clone, Copy, PartialEq, Eq)]
pub struct NameTooLong;

impl fmt::Display for NameTooLong {
    fn fmt(&self, formatter: &mut fmt::Formatter<'_>) -> fmt::Result {
        formatter.write_str("a name is too long for a flat table")
    }
}

impl std::error::Error for NameTooLong {}

#[derive(Debug, Clone)]
enum Table {
    Inline(Schema),
    Registry(Vec<u8>),
}

/// Collects tables in the order of their tags, and schemas that several tables share by name.
///
/// ```
/// use skiff::{FormatBuilder, Schema, WireType};
///
/// let point = Schema::tuple([Schema::leaf(WireType::Double).named("x")]);
/// let tables = FormatBuilder::new()
///     .table(Schema::tuple([Schema::leaf(WireType::Int64).named("id")]))
///     .table_from_registry("points")
///     .register("points", point)
///     .build()?;
/// assert_eq!(tables.format().check(), Ok(()));
/// assert_eq!(tables.format().tables(), 2);
/// # Ok::<(), skiff::NameTooLong>(())
/// ```
#[derive(Debug, Clone, Default)]
pub struct FormatBuilder {
    tables: Vec<Table>,
    registry: BTreeMap<Vec<u8>, Schema>,
}

impl FormatBuilder {
    /// No tables and no schemas yet.
    pub fn new() -> Self {
        Self::default()
    }

    /// The next table has this schema.
    #[must_use]
    pub fn table(mut self, schema: Schema) -> Self {
        self.tables.push(Table::Inline(schema));
        self
    }

    /// The next table has the schema of this name.
    #[must_use]
    pub fn table_from_registry(mut self, name: impl Into<Vec<u8>>) -> Self {
        self.tables.push(Table::Registry(name.into()));
        self
    }

    /// A schema by name; a later one of the same name takes its place.
    #[must_use]
    pub fn register(mut self, name: impl Into<Vec<u8>>, schema: Schema) -> Self {
        self.registry.insert(name.into(), schema);
        self
    }

    /// The format's tables.
    pub fn build(&self) -> Result<FormatTables, NameTooLong> {
        let mut made = FormatTables::default();
        for table in &self.tables {
            let (kind, [one, two]) = match table {
                Table::Inline(schema) => (0, made.add_block(schema)?),
                Table::Registry(name) => (1, made.add_name(name)?),
            };
            made.references.extend(words([kind, one, two, 0]));
        }
        // The map is ordered by unsigned bytes, a prefix first: the order that a registry has to have.
        for (name, schema) in &self.registry {
            let [start, length] = made.add_name(name)?;
            let [first, count] = made.add_block(schema)?;
            made.registry.extend(words([start, length, first, count]));
        }
        Ok(made)
    }
}

/// A format's four tables.
#[derive(Debug, Clone, PartialEq, Eq, Default)]
pub struct FormatTables {
    /// Schema records, 16 bytes each.
    pub records: Vec<u8>,
    /// The store that names lie in.
    pub names: Vec<u8>,
    /// A reference for each table, 16 bytes each.
    pub references: Vec<u8>,
    /// Schemas by name, 16 bytes each, ascending by name.
    pub registry: Vec<u8>,
}

impl<'a> From<&'a FormatTables> for Format<'a> {
    fn from(tables: &'a FormatTables) -> Self {
        tables.format()
    }
}

impl FormatTables {
    /// The format that they are.
    pub fn format(&self) -> Format<'_> {
        let Self { records, names, references, registry } = self;
        Format { records, names, references, registry }
    }

    /// Appends a name and says where it stands: start and length.
    fn add_name(&mut self, name: &[u8]) -> Result<[u32; 2], NameTooLong> {
        let start = u32::try_from(self.names.len()).map_err(|_| NameTooLong)?;
        let length = u32::try_from(name.len()).map_err(|_| NameTooLong)?;
        self.names.extend_from_slice(name);
        Ok([start, length])
    }

    /// Appends a schema's records in level order, so that a node's children stand side by side, and
    /// says where they stand: first record and record count.
    fn add_block(&mut self, root: &Schema) -> Result<[u32; 2], NameTooLong> {
        let first = self.records.len() / SCHEMA_RECORD_BYTES;
        let mut waiting = VecDeque::from([root]);
        let mut met = 1;
        while let Some(node) = waiting.pop_front() {
            let children = node.children.len() as u32;
            let first_child = if children == 0 { 0 } else { met };
            met += children;
            let (named, start, length) = match &node.name {
                None => (0, 0, 0),
                Some(name) => {
                    let length = u16::try_from(name.len()).map_err(|_| NameTooLong)?;
                    (1, self.add_name(name)?[0], length)
                }
            };
            self.records.extend([node.wire_type.code(), named]);
            self.records.extend(length.to_le_bytes());
            self.records.extend([start, first_child, children].into_iter().flat_map(u32::to_le_bytes));
            waiting.extend(&node.children);
        }
        Ok([first as u32, met])
    }
}

fn words(fields: [u32; 4]) -> impl Iterator<Item = u8> {
    fields.into_iter().flat_map(u32::to_le_bytes)
}
