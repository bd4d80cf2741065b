//! Which value a refusal is about, in words: from the row's root down, as `column "name", element 3, tag 1`.
//! A path is only for people to read; what is refused, and where, the library has said before.

use std::fmt::Write;

use crate::layout::Node;
use crate::value::{Table, TUPLE, VARIANT};
use crate::{Context, Format, Refusal, SchemaBlock, Settings, ValueTable, WireType};

/// A tuple's field by its name, or by its number where it has none.
fn field(child: &Node, index: usize) -> String {
    match child.name {
        Some(name) => format!("column \"{}\"", name.escape_ascii()),
        None => format!("field {index}"),
    }
}

fn element(index: usize, tag: usize) -> String {
    format!("element {index}, tag {tag}")
}

/// In writing, the place of these is a value record.
pub(crate) fn is_about_a_value(refusal: &Refusal) -> bool {
    matches!(
        refusal,
        Refusal::BlobTooLarge { .. }
            | Refusal::ValueDoesNotMatchSchema { .. }
            | Refusal::TupleLength { .. }
            | Refusal::InvalidVariantTag { .. }
    )
}

/// Down to the value record that a refusal in writing is about; the table conforms up to that record.
pub(crate) fn in_values(block: &SchemaBlock, value: &ValueTable, refusal: &Refusal) -> Option<String> {
    let place = usize::try_from(refusal.place()).ok().filter(|_| is_about_a_value(refusal))?;
    let table = Table { records: value.records, payload: value.payload };
    let mut steps = Vec::new();
    let (mut at, mut node) = (0, block.node(0));
    while at != place {
        let parent = table.record(at);
        let mut child = at + 1;
        let mut index = 0;
        while table.after(child) <= place {
            child = table.after(child);
            index += 1;
        }
        at = child;
        let tag = usize::from(table.record(child).tag);
        let chosen = if parent.kind == TUPLE { index } else { tag };
        // The tag of the record at the place may choose nothing: then there is no node, and no further step.
        let below = node.and_then(|node| block.node(node.child(chosen)?));
        steps.push(match (parent.kind, &below) {
            (TUPLE, Some(child)) => field(child, index),
            (TUPLE, None) => format!("field {index}"),
            (VARIANT, _) => format!("tag {tag}"),
            _ => element(index, tag),
        });
        node = below;
    }
    Some(steps.join(", "))
}

/// Down to the value of a stream that a refusal in reading is about. `input` has the refused row at
/// `position`, and the refusal's place is an offset in it.
pub(crate) fn in_stream(
    format: &Format,
    settings: &Settings,
    input: &[u8],
    position: usize,
    refusal: &Refusal,
) -> Option<String> {
    let charged = match refusal {
        Refusal::Truncated { context: Context::TableTag, .. } => return None,
        Refusal::Truncated { .. } | Refusal::BlobTooLarge { .. } | Refusal::InvalidVariantTag { .. } => None,
        Refusal::RowTooLarge { limit, .. } => Some(*limit),
        _ => return None,
    };
    let payload_is_cut = matches!(refusal, Refusal::Truncated { context: Context::BlobPayload, .. });
    let mut tag = [0; 2];
    tag.copy_from_slice(input.get(position..position + 2)?);
    let block = format.table_schema(u16::from_le_bytes(tag))?;
    let (at, place) = (position + 2, usize::try_from(refusal.place()).ok()?);
    let node_charge = settings.node_charge();
    let mut walk =
        Walk { block, input, at, place, charged, spent: 0, node_charge, payload_is_cut, steps: Vec::new() };
    let root = block.node(0)?;
    matches!(walk.node(&root)?, Found::Here).then(|| walk.steps.join(", "))
}

enum Found {
    /// The steps lead to it.
    Here,
    /// It is not in what was passed.
    Later,
}

/// Over the bytes before the place, which the library has found good.
struct Walk<'a> {
    block: SchemaBlock<'a>,
    input: &'a [u8],
    at: usize,
    place: usize,
    /// The row's limit, where it is the charge that was refused.
    charged: Option<u64>,
    spent: u64,
    node_charge: u64,
    payload_is_cut: bool,
    steps: Vec<String>,
}

impl Walk<'_> {
    /// Whether the row costs too much from here on.
    fn charge(&mut self, cost: u64) -> bool {
        self.spent = self.spent.saturating_add(cost);
        self.charged.is_some_and(|limit| self.spent > limit)
    }

    /// Whether the field that begins here is the place.
    fn is_place(&self) -> bool {
        self.charged.is_none() && !self.payload_is_cut && self.at == self.place
    }

    /// A number of so many bytes.
    fn take(&mut self, bytes: usize) -> Option<usize> {
        let field = self.input.get(self.at..self.at.checked_add(bytes)?)?;
        self.at += bytes;
        Some(field.iter().rev().fold(0, |number, byte| number << 8 | usize::from(*byte)))
    }

    fn node(&mut self, node: &Node) -> Option<Found> {
        if self.charge(self.node_charge) {
            return Some(Found::Here);
        }
        match (node.wire_type, node.wire_type.fixed_width()) {
            (_, Some(width)) => self.fixed(width),
            (WireType::Variant8, _) => self.variant(node, 1),
            (WireType::Variant16, _) => self.variant(node, 2),
            (WireType::RepeatedVariant8, _) => self.repeated(node, 1),
            (WireType::RepeatedVariant16, _) => self.repeated(node, 2),
            (WireType::Tuple, _) => self.tuple(node),
            _ => self.blob(),
        }
    }

    fn fixed(&mut self, width: usize) -> Option<Found> {
        // What has no bytes can't be cut.
        if width > 0 && self.is_place() {
            return Some(Found::Here);
        }
        self.at = self.at.checked_add(width)?;
        Some(Found::Later)
    }

    fn blob(&mut self) -> Option<Found> {
        if self.is_place() {
            return Some(Found::Here);
        }
        let length = self.take(4)?;
        let is_cut = self.payload_is_cut && length > 0 && self.at == self.place;
        if is_cut || self.charge(length as u64) {
            return Some(Found::Here);
        }
        self.at = self.at.checked_add(length)?;
        Some(Found::Later)
    }

    fn variant(&mut self, node: &Node, tag_bytes: usize) -> Option<Found> {
        if self.is_place() {
            return Some(Found::Here);
        }
        let tag = self.take(tag_bytes)?;
        let child = self.block.node(node.child(tag)?)?;
        self.below(&child, format!("tag {tag}"))
    }

    fn repeated(&mut self, node: &Node, tag_bytes: usize) -> Option<Found> {
        let end = (1 << (8 * tag_bytes)) - 1;
        for index in 0.. {
            if self.is_place() {
                self.steps.push(format!("element {index}"));
                return Some(Found::Here);
            }
            let tag = self.take(tag_bytes)?;
            if tag == end {
                break;
            }
            let child = self.block.node(node.child(tag)?)?;
            if let Found::Here = self.below(&child, element(index, tag))? {
                return Some(Found::Here);
            }
        }
        Some(Found::Later)
    }

    fn tuple(&mut self, node: &Node) -> Option<Found> {
        for index in 0..node.children {
            let child = self.block.node(node.child(index)?)?;
            if let Found::Here = self.below(&child, field(&child, index))? {
                return Some(Found::Here);
            }
        }
        Some(Found::Later)
    }

    fn below(&mut self, child: &Node, step: String) -> Option<Found> {
        self.steps.push(step);
        let found = self.node(child)?;
        if let Found::Later = found {
            self.steps.pop();
        }
        Some(found)
    }
}

/// To the schema record that a refusal of a format is about: the table or the schema of the registry, and the
/// way from its root. Of a name that is no text, which one it is.
pub(crate) fn in_format(format: &Format, refusal: &Refusal) -> Option<String> {
    match refusal {
        Refusal::UnknownRegistryReference { table, .. } => return Some(format!("table {table}")),
        Refusal::NameNotUtf8 => return format.bad_name().map(|bad| bad.to_string()),
        _ => {}
    }
    let tables = (0..=u16::MAX).take(format.tables());
    let tables = tables.map_while(|table| Some((format!("table {table}"), format.table_schema(table)?)));
    let registered = format
        .registered()
        .map(|(name, block)| (format!("registry schema \"{}\"", name.escape_ascii()), block));
    // The registry is judged first, but only a table's root and names are.
    let is_about_a_table = matches!(refusal.number(), 8 | 10);
    let blocks = registered.filter(|_| !is_about_a_table).chain(tables);
    blocks.filter_map(|(owner, block)| Some(join(owner, in_block(&block, refusal)?))).next()
}

fn join(owner: String, path: String) -> String {
    if path.is_empty() {
        return owner;
    }
    format!("{owner}, {path}")
}

/// From a block's root to the schema record that a refusal is about. None where it is about none of the block's.
pub(crate) fn in_block(block: &SchemaBlock, refusal: &Refusal) -> Option<String> {
    if *refusal == Refusal::NameNotUtf8 {
        return block.bad_name().map(|bad| bad.to_string());
    }
    if !is_about_a_record(refusal) {
        return None;
    }
    let offset = refusal.place().checked_sub(block.first).filter(|offset| *offset < block.count)?;
    let mut index = usize::try_from(offset).ok()?;
    let mut steps = Vec::new();
    while index > 0 {
        // In level order a parent stands before its children.
        let (parent, above) = (0..index).find_map(|parent| {
            let node = block.node(parent)?;
            (0..node.children).contains(&index.checked_sub(node.child(0)?)?).then_some((parent, node))
        })?;
        let nth = index - above.child(0)?;
        steps.push(match above.wire_type {
            WireType::Tuple => field(&block.node(index)?, nth),
            _ => format!("choice {nth}"),
        });
        index = parent;
    }
    steps.reverse();
    Some(steps.join(", "))
}

/// The place of these is a schema record.
pub(crate) fn is_about_a_record(refusal: &Refusal) -> bool {
    matches!(refusal.number(), 4 | 5 | 8 | 9 | 10)
}

/// ` WHERE, PATH` for the words of a refusal; a path may be empty.
pub(crate) fn words(place: &str, path: &str) -> String {
    let mut words = String::new();
    for part in [place, path] {
        if !part.is_empty() {
            let _ = write!(words, "{} {part}", if words.is_empty() { ":" } else { "," });
        }
    }
    words
}
