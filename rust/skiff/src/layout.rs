//! The flat tables of a format, looked into: for names and for paths, never for an answer. Only tables that
//! the library has accepted are worth looking into; in others something may not be found.

use std::collections::VecDeque;

use crate::sys::SCHEMA_RECORD_BYTES as RECORD_BYTES;
use crate::{Format, Schema, SchemaBlock, WireType};

/// The levels of the deepest schema.
const MOST_LEVELS: usize = 64;

/// A little-endian number of a record.
fn number(record: &[u8], at: usize, bytes: usize) -> usize {
    record[at..at + bytes].iter().rev().fold(0, |number, byte| number << 8 | usize::from(*byte))
}

fn record(table: &[u8], index: usize) -> Option<&[u8]> {
    let start = index.checked_mul(RECORD_BYTES)?;
    table.get(start..start + RECORD_BYTES)
}

fn span(store: &[u8], start: usize, length: usize) -> Option<&[u8]> {
    store.get(start..start.checked_add(length)?)
}

/// One schema record.
#[derive(Debug, Clone, Copy)]
pub(crate) struct Node<'a> {
    pub(crate) wire_type: WireType,
    pub(crate) name: Option<&'a [u8]>,
    first_child: usize,
    pub(crate) children: usize,
}

impl Node<'_> {
    /// The number in the block of the child of this index.
    pub(crate) fn child(&self, index: usize) -> Option<usize> {
        (index < self.children).then(|| self.first_child + index)
    }
}

impl<'a> SchemaBlock<'a> {
    /// The node of this number in the block.
    pub(crate) fn node(&self, index: usize) -> Option<Node<'a>> {
        let record = record(self.records, usize::try_from(self.first).ok()?.checked_add(index)?)?;
        let name = match record[1] {
            0 => None,
            _ => Some(span(self.names, number(record, 4, 4), number(record, 2, 2))?),
        };
        let wire_type = WireType::from_code(u64::from(record[0]))?;
        Some(Node { wire_type, name, first_child: number(record, 8, 4), children: number(record, 12, 4) })
    }

    /// The names of the columns, in order; UTF-8 where the library has accepted the schema.
    pub fn columns(&self) -> Columns<'a> {
        Columns { block: *self, root: self.node(0), next: 0 }
    }

    /// Which column has this name: the first, where several do.
    pub fn column(&self, name: impl AsRef<[u8]>) -> Option<usize> {
        self.columns().position(|column| column == name.as_ref())
    }

    /// The schema as a tree: what [`crate::Schema::tables`] lays out. None where the block is not in form, or
    /// over 64 levels deep.
    pub fn schema(&self) -> Option<Schema> {
        let most = self.records.len() / RECORD_BYTES;
        let count = usize::try_from(self.count).ok().filter(|count| *count <= most)?;
        // A level at a time: children stand where those of earlier nodes end.
        let mut nodes = Vec::new();
        let mut levels = vec![1];
        for index in 0..count {
            let node = self.node(index)?;
            let level = *levels.get(index).filter(|level| **level <= MOST_LEVELS)?;
            let starts_elsewhere = node.children > 0 && node.first_child != levels.len();
            if starts_elsewhere || levels.len() + node.children > count {
                return None;
            }
            levels.resize(levels.len() + node.children, level + 1);
            nodes.push(node);
        }
        // From the last node on, each takes the trees that wait for it.
        let mut waiting = VecDeque::new();
        for Node { wire_type, name, children, .. } in nodes.into_iter().rev() {
            let below = waiting.split_off(waiting.len().checked_sub(children)?);
            waiting.push_front(Schema { wire_type, name: name.map(<[u8]>::to_vec), children: below.into() });
        }
        waiting.pop_front().filter(|_| waiting.is_empty() && levels.len() == count)
    }
}

/// The names of a table's columns that are left, in order.
#[derive(Debug, Clone)]
pub struct Columns<'a> {
    block: SchemaBlock<'a>,
    root: Option<Node<'a>>,
    next: usize,
}

impl<'a> Iterator for Columns<'a> {
    type Item = &'a [u8];

    fn next(&mut self) -> Option<Self::Item> {
        let child = self.root?.child(self.next)?;
        self.next += 1;
        self.block.node(child)?.name
    }
}

/// What a table's reference is.
#[derive(Debug, Clone, Copy, PartialEq, Eq)]
pub enum TableRef<'a> {
    /// A schema of its own.
    Inline(SchemaBlock<'a>),
    /// The schema of this name in the registry.
    Registry(&'a [u8]),
}

impl<'a> Format<'a> {
    /// How many tables there are.
    pub fn tables(&self) -> usize {
        self.references.len() / RECORD_BYTES
    }

    /// The references of all tables, in order; fewer where one is not in form.
    pub fn table_refs(&self) -> impl Iterator<Item = TableRef<'a>> + use<'a> {
        let format = *self;
        (0..self.tables()).map_while(move |table| format.table_ref(table))
    }

    /// The schemas of the registry with their names, in order; fewer where one is not in form.
    pub fn registered(&self) -> impl Iterator<Item = (&'a [u8], SchemaBlock<'a>)> + use<'a> {
        let format = *self;
        self.registry.chunks_exact(RECORD_BYTES).map_while(move |entry| {
            let name = span(format.names, number(entry, 0, 4), number(entry, 4, 4))?;
            Some((name, format.block(number(entry, 8, 4), number(entry, 12, 4))))
        })
    }

    /// The schema of a table, its own or from the registry. None where there is no such table.
    pub fn table_schema(&self, table: u16) -> Option<SchemaBlock<'a>> {
        match self.table_ref(usize::from(table))? {
            TableRef::Inline(block) => Some(block),
            TableRef::Registry(wanted) => {
                self.registered().find(|(name, _)| *name == wanted).map(|(_, block)| block)
            }
        }
    }

    fn table_ref(&self, table: usize) -> Option<TableRef<'a>> {
        let reference = record(self.references, table)?;
        let (one, two) = (number(reference, 4, 4), number(reference, 8, 4));
        Some(match reference[0] {
            0 => TableRef::Inline(self.block(one, two)),
            _ => TableRef::Registry(span(self.names, one, two)?),
        })
    }

    fn block(&self, first: usize, count: usize) -> SchemaBlock<'a> {
        SchemaBlock { records: self.records, names: self.names, first: first as u64, count: count as u64 }
    }
}
