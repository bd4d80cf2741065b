//! Value tables with one fault each, beside those that have none.

use plain::decoding::{kind, ValueTable};

use super::draw::{lay_out, Body, Node};

fn scalar(code: u8, byte: u8) -> Node {
    Node::new(code, Body::Data([byte, 0, 0, 0, 0, 0, 0, 0]))
}

fn stored(code: u8, bytes: &[u8]) -> Node {
    Node::new(code, Body::Payload(bytes.to_vec()))
}

fn parent(of: u8, children: Vec<Node>) -> Node {
    Node::new(of, Body::Children(children))
}

/// A scalar, a list with a tag, a variant, an int128, two blobs: records 0 to 8.
fn right() -> Node {
    let list = parent(kind::REPEATED, vec![scalar(3, 9).chosen(1, 2)]);
    let choice = parent(kind::VARIANT, vec![stored(13, b"ab").chosen(1, 2)]);
    let wide = stored(6, &[0x80; 16]);
    parent(kind::TUPLE, vec![scalar(1, 1), list, choice, wide, stored(14, b"c"), scalar(0, 0)])
}

const LIST: usize = 2;
const ELEMENT: usize = 3;
const CHOICE: usize = 4;
const STRING: usize = 5;
const INT128: usize = 6;
const YSON: usize = 7;
const NOTHING: usize = 8;

/// A byte of a record, and what it becomes.
const CHANGES: [(usize, usize, u8); 37] = [
    // The kind: none, and one more or fewer children than there are, or other data.
    (0, 0, 18),
    (0, 0, 255),
    (0, 0, 15),
    (1, 0, 18),
    (1, 0, 13),
    (LIST, 0, 17),
    (STRING, 0, 14),
    (STRING, 0, 6),
    (INT128, 0, 7),
    (NOTHING, 0, 1),
    // Byte 1, and tags where no parent chose by one.
    (0, 1, 1),
    (1, 1, 1),
    (STRING, 1, 255),
    (0, 2, 1),
    (1, 2, 1),
    (1, 3, 1),
    (CHOICE, 3, 128),
    // A tag where a parent did.
    (ELEMENT, 3, 255),
    (STRING, 2, 0),
    // Sizes.
    (0, 4, 5),
    (0, 4, 7),
    (0, 7, 255),
    (1, 4, 1),
    (LIST, 4, 0),
    (LIST, 4, 2),
    (CHOICE, 4, 0),
    (CHOICE, 4, 2),
    (STRING, 4, 1),
    (STRING, 4, 3),
    (INT128, 4, 15),
    (NOTHING, 6, 1),
    // Data: a boolean, past a width, of a parent, and where payload starts.
    (1, 8, 2),
    (ELEMENT, 10, 1),
    (LIST, 15, 1),
    (STRING, 8, 1),
    (INT128, 8, 1),
    (YSON, 12, 1),
];

fn deep(of: u8, levels: usize) -> Node {
    (1..levels).fold(Node::nothing(), |below, _| parent(of, vec![below]))
}

pub fn few(emit: &mut dyn FnMut(ValueTable)) {
    let right = lay_out(&right());
    emit(right.clone());
    for code in 0..15 {
        let node = match code {
            6 => stored(6, &[7; 16]),
            7 => stored(7, &[7; 32]),
            13 | 14 => stored(code, b""),
            _ => scalar(code, u8::from(code > 0)),
        };
        emit(lay_out(&node));
    }
    for (record, byte, value) in CHANGES {
        let mut table = right.clone();
        table.records[16 * record + byte] = value;
        emit(table);
    }
    for bytes in [0, 1, 15, 16, 128, 143] {
        emit(ValueTable { records: right.records[..bytes].to_vec(), ..right.clone() });
    }
    for (from, to) in [(0, 9), (8, 9), (1, 1), (5, 6)] {
        let mut table = right.clone();
        let record = table.records[16 * from..16 * from + 16].to_vec();
        table.records.splice(16 * to..16 * to, record);
        emit(table);
    }
    for bytes in [0, 18, 20] {
        let mut table = right.clone();
        table.payload.resize(bytes, 0x77);
        emit(table);
    }
    for of in [kind::VARIANT, kind::REPEATED, kind::TUPLE] {
        for levels in [64, 65] {
            emit(lay_out(&deep(of, levels)));
        }
        emit(lay_out(&parent(of, vec![])));
    }
    emit(ValueTable::default());
}
