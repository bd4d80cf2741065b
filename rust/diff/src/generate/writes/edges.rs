//! The fixed cases: each kind under each type, edges of every scalar, tags, counts, limits, depths and
//! widths, and a small table with every byte changed.

use plain::decoding::kind;
use plain::settings::{Settings, MOST, MOST_NODE_CHARGE};
use plain::wire_type::fixed_width;

use super::draw::{lay_out, leaf, Body, Node};
use super::{schema_of, Emit};
use crate::generate::named_edges;
use crate::generate::names::{BAD, GOOD};
use crate::generate::rows::edges::{blob_limits, limits_around, BLOB_LENGTHS};
use crate::generate::rows::usual;
use crate::generate::rows::values::DOUBLES;
use crate::generate::{Kind, NAMES};
use crate::plan::{chain, fan, over, table_of, Plan};
use crate::rng::Rng;
use crate::writing::WriteCase;

pub fn fixed(emit: &mut Emit) {
    kinds(emit);
    scalars(emit);
    tags(emit);
    counts(emit);
    limits(emit);
    two_blob_limits(emit);
    depths(emit);
    widths(emit);
    every_byte(emit);
    names(emit);
}

/// What a sample has to have, whatever its length: tags at and past the last, also at the last that one byte
/// has, and a child more than there may be; the deepest value, and a schema of a level more; each setting at
/// its bounds and past them while the others are usual.
pub fn few(emit: &mut Emit) {
    for (code, of, most) in [(15, kind::VARIANT, 256), (17, kind::REPEATED, 255)] {
        for (count, tag) in [(most, most - 1), (most, most), (most + 1, 0)] {
            few_tags(emit, code, of, count, tag);
        }
    }
    for code in 15..19 {
        let of = if code < 17 { kind::VARIANT } else { kind::REPEATED };
        [0, 1, 2, 255, 256, 65_535].into_iter().for_each(|tag| few_tags(emit, code, of, 2, tag));
    }
    for levels in [63, 64] {
        let value = (1..levels).fold(Node::nothing(), |below, _| tuple(vec![below]));
        few_with(emit, "depths", &chain(levels, 19, 0), value, usual());
    }
    let charges = [0, 1, MOST_NODE_CHARGE, MOST_NODE_CHARGE + 1];
    let charges = charges.map(|node_charge| Settings { node_charge, ..usual() });
    let limits = [0, MOST, MOST + 1];
    let strings = limits.map(|max_string32_bytes| Settings { max_string32_bytes, ..usual() });
    let ysons = limits.map(|max_yson32_bytes| Settings { max_yson32_bytes, ..usual() });
    let rows = limits.map(|max_row_bytes| Settings { max_row_bytes, ..usual() });
    for settings in charges.into_iter().chain(strings).chain(ysons).chain(rows) {
        few_with(emit, "odd settings", &[Plan::new(13, 0)], blob(13, 1), settings);
    }
    few_blob_limits(emit);
    few_names(emit);
}

/// Each of two limits at its blob's length, with the other at 0 too, one below it, and past its largest where no such
/// blob can occur.
fn few_blob_limits(emit: &mut Emit) {
    for (code, length, limits) in [
        (13, 2, [2, 0]),
        (13, 2, [1, MOST]),
        (13, 0, [0, MOST]),
        (14, 2, [0, 2]),
        (14, 2, [MOST, 1]),
        (14, 0, [MOST, 0]),
        (14, 2, [MOST + 1, 2]),
    ] {
        few_with(emit, "limits", &[Plan::new(code, 0)], blob(code, length), blob_limits(limits));
    }
    for limits in [[1, 2], [0, 2], [2, 1]] {
        let both = tuple(vec![blob(13, 1), blob(14, 2)]);
        few_with(emit, "limits", &over(19, &[13, 14]), both, blob_limits(limits));
    }
}

/// An uint8 under a column of this name, below a root without one.
fn one_named(name: &[u8]) -> WriteCase {
    let mut plans = table_of(&[Plan::new(8, 0)]);
    plans[1].name = Some(name.to_vec());
    let value = tuple(vec![Node::new(8, Body::Data([7, 0, 0, 0, 0, 0, 0, 0]))]);
    WriteCase { schema: schema_of(&plans), value: lay_out(&value), output: 16, position: 2 }
}

/// A column whose name is no text: with good numbers and with bad ones, which come before it; and before a value table
/// that is none, a value of another kind, and a root that is no tuple, which come after it.
fn beside_bad_name(name: &[u8]) -> [WriteCase; 5] {
    let right = one_named(name);
    let schema = right.schema.clone().with_settings(Settings { node_charge: 0, ..usual() });
    let mut ragged = right.clone();
    ragged.value.records.pop();
    let other = lay_out(&tuple(vec![Node::nothing()]));
    let leaf = schema_of(&[Plan::named(8, 0, name)]);
    [
        right.clone(),
        WriteCase { schema, ..right.clone() },
        ragged,
        WriteCase { value: other, ..right.clone() },
        WriteCase { schema: leaf, ..right },
    ]
}

/// Names of columns that are no text, and such as are in an unusual way.
fn names(emit: &mut Emit) {
    for (_, name) in BAD {
        beside_bad_name(name).into_iter().for_each(|case| emit(NAMES, case));
    }
    GOOD.iter().for_each(|name| emit(NAMES, one_named(name.as_bytes())));
}

fn few_names(emit: &mut Emit) {
    for name in named_edges::FEW {
        emit(NAMES, one_named(name));
    }
    beside_bad_name(named_edges::FEW[1]).into_iter().skip(1).for_each(|case| emit(NAMES, case));
    for name in ["é", "名", "\u{1F600}", "\0", "\u{FEFF}n", "\u{FFFF}"] {
        emit(NAMES, one_named(name.as_bytes()));
    }
}

fn few_tags(emit: &mut Emit, code: u8, of: u8, count: u32, tag: u32) {
    let chosen = Node::nothing().chosen(tag as u16, count);
    let value = Node::new(of, Body::Children(vec![chosen]));
    few_with(emit, "tags", &fan(code, count as usize, 0), value, usual());
}

/// With room on both sides of the row.
fn few_with(emit: &mut Emit, what: Kind, column: &[Plan], value: Node, settings: Settings) {
    let schema = schema_of(&table_of(column)).with_settings(settings);
    emit(what, WriteCase { schema, value: lay_out(&tuple(vec![value])), output: 16, position: 2 });
}

fn tuple(children: Vec<Node>) -> Node {
    Node::new(kind::TUPLE, Body::Children(children))
}

/// One column of a table, and its value.
fn one(emit: &mut Emit, what: Kind, column: &[Plan], value: Node) {
    one_with(emit, what, column, value, usual());
}

fn one_with(emit: &mut Emit, what: Kind, column: &[Plan], value: Node, settings: Settings) {
    let schema = schema_of(&table_of(column)).with_settings(settings);
    let value = lay_out(&tuple(vec![value]));
    emit(what, WriteCase { schema, value, output: 0, position: 0 });
}

/// A value of each kind; compound ones have one child.
fn of_kind(rng: &mut Rng, of: u8) -> Node {
    if of < kind::VARIANT {
        return leaf(rng, of);
    }
    Node::new(of, Body::Children(vec![Node::nothing()]))
}

/// Each of the eighteen kinds under each of the twenty types.
fn kinds(emit: &mut Emit) {
    let rng = &mut Rng::new(18);
    for code in 0..20 {
        let column = if code < 15 { vec![Plan::new(code, 0)] } else { over(code, &[0]) };
        for of in 0..18 {
            let value = of_kind(rng, of);
            one(emit, "kinds", &column, value.clone());
            // At the root, and below a list.
            let schema = schema_of(&table_of(&column));
            emit("kinds", WriteCase { schema, value: lay_out(&value), output: 0, position: 0 });
            let list = Node::new(kind::REPEATED, Body::Children(vec![value]));
            let mut plans = vec![Plan::new(18, 1)];
            plans.extend(column.clone());
            one(emit, "kinds", &plans, list);
        }
    }
}

/// The lowest, the highest, zero, one and minus one of every width, and every double of note.
fn scalars(emit: &mut Emit) {
    for code in 0..13_u8 {
        let width = fixed_width(u64::from(code)).expect("fixed") as usize;
        let mut edges: Vec<Vec<u8>> = vec![vec![0; width]];
        if code == 1 {
            edges.push(vec![1]);
        } else if width > 0 {
            let with = |fill: u8, first: u8, last: u8| {
                let mut bytes = vec![fill; width];
                bytes[0] = first;
                bytes[width - 1] = last;
                bytes
            };
            edges.extend([with(255, 255, 255), with(0, 0, 0x80), with(255, 255, 0x7F), with(0, 1, 0)]);
            edges.push((0..width as u8).map(|byte| byte * 7 + 3).collect());
        }
        if code == 12 {
            edges.extend(DOUBLES.iter().map(|bits| bits.to_le_bytes().to_vec()));
        }
        for bytes in edges {
            let body = if width > 8 {
                Body::Payload(bytes)
            } else {
                let mut data = [0; 8];
                data[..width].copy_from_slice(&bytes);
                Body::Data(data)
            };
            one(emit, "scalars", &[Plan::new(code, 0)], Node::new(code, body));
        }
    }
}

/// Tags at and past the edge of the choices, and at those of one and two bytes; the end tags too. The
/// most children that each type may have, and one more.
fn tags(emit: &mut Emit) {
    for (code, all) in [
        (15, &[0, 1, 2, 255, 256, 257][..]),
        (16, &[0, 1, 2, 256, 257, 65_536, 65_537]),
        (17, &[0, 1, 2, 254, 255, 256]),
        (18, &[0, 1, 2, 255, 256, 65_535, 65_536]),
    ] {
        for count in all {
            let column = fan(code, *count, 0);
            let edges =
                [0, 1, *count as i64 - 1, *count as i64, *count as i64 + 1, 254, 255, 256, 65_534, 65_535];
            for tag in edges.into_iter().filter(|tag| (0..65_536).contains(tag)) {
                if *count > 300 && tag < 65_533 && tag != 0 {
                    continue;
                }
                let chosen = Node::nothing().chosen(tag as u16, *count as u32);
                let of = if code < 17 { kind::VARIANT } else { kind::REPEATED };
                one(emit, "tags", &column, Node::new(of, Body::Children(vec![chosen.clone()])));
                if code >= 17 && *count > 0 {
                    // The tag is judged before its child, and after the elements before it.
                    let wrong = Node::new(1, Body::Data([1, 0, 0, 0, 0, 0, 0, 0])).chosen(tag as u16, 0);
                    let items = vec![Node::nothing(), Node::nothing(), wrong];
                    one(emit, "tags", &column, Node::new(of, Body::Children(items)));
                }
            }
        }
    }
}

/// Tuples, at the root and below, with fewer and more values than columns.
fn counts(emit: &mut Emit) {
    for columns in 0..4_u32 {
        for values in 0..5 {
            let mut plans = vec![Plan::new(19, columns)];
            plans.extend((0..columns).map(|_| Plan::named(0, 0, b"c")));
            let value = tuple(vec![Node::nothing(); values]);
            let schema = schema_of(&plans);
            emit("counts", WriteCase { schema, value: lay_out(&value), output: 0, position: 0 });
            one(emit, "counts", &fan(19, columns as usize, 0), value.clone());
            // The length comes before the children's own faults.
            let mut wrong = value;
            if let Some(first) = wrong.children().and_then(|children| children.first_mut()) {
                *first = Node::new(1, Body::Data([0; 8]));
                one(emit, "counts", &fan(19, columns as usize, 0), wrong);
            }
        }
    }
}

fn blob(code: u8, length: usize) -> Node {
    Node::new(code, Body::Payload(vec![0x61; length]))
}

/// Blobs around the limit; int128 and int256 have none.
fn limits(emit: &mut Emit) {
    for length in [0_usize, 1, 2, 31, 32, 255, 256, 65_535, 65_536] {
        for limit in [0, 1, length as u64, length as u64 + 1, (length as u64).saturating_sub(1)] {
            let settings = usual().with_max_blob_bytes(limit);
            for code in [13, 14] {
                one_with(emit, "limits", &[Plan::new(code, 0)], blob(code, length), settings);
                one_with(emit, "limits", &[Plan::new(27 - code, 0)], blob(code, length), settings);
            }
        }
    }
    for (code, width) in [(6, 16), (7, 32)] {
        let settings = Settings { max_row_bytes: 0, ..usual() }.with_max_blob_bytes(0);
        let wide = Node::new(code, Body::Payload(vec![0x80; width]));
        one_with(emit, "limits", &[Plan::new(code, 0)], wide, settings);
    }
}

/// Two limits in all pairs, over blobs of both types in one row, of one, and of none; and over a value of the other
/// type, which is refused before its length is.
fn two_blob_limits(emit: &mut Emit) {
    for lengths in BLOB_LENGTHS {
        let (s, y) = (blob(13, lengths[0]), blob(14, lengths[1]));
        let items = [(&y, 1), (&s, 0), (&y, 1)].map(|(item, tag)| item.clone().chosen(tag, 2));
        let chosen = s.clone().chosen(0, 2);
        let rows = [
            (over(19, &[13, 14]), tuple(vec![s.clone(), y.clone()])),
            (over(19, &[14, 13, 14]), tuple(vec![y.clone(), s.clone(), y.clone()])),
            (over(17, &[13, 14]), Node::new(kind::REPEATED, Body::Children(items.into()))),
            (over(16, &[13, 14]), Node::new(kind::VARIANT, Body::Children(vec![chosen]))),
            (over(19, &[14, 13]), tuple(vec![s.clone(), y.clone()])),
            (vec![Plan::new(13, 0)], s),
            (vec![Plan::new(14, 0)], y),
            (vec![Plan::new(0, 0)], Node::nothing()),
        ];
        for (column, value) in rows {
            for limits in limits_around(lengths) {
                one_with(emit, "limits", &column, value.clone(), blob_limits(limits));
            }
        }
    }
}

/// Chains of each compound type up to the bound and over it, in the schema and in the value.
fn depths(emit: &mut Emit) {
    for code in 15..20 {
        let of = [kind::VARIANT, kind::REPEATED, kind::TUPLE][usize::from(code - 15) / 2];
        for (schema_levels, value_levels) in
            [(62, 62), (63, 63), (64, 64), (63, 62), (62, 63), (63, 64), (63, 65), (2, 64), (2, 65)]
        {
            let mut value = Node::nothing();
            for _ in 1..value_levels {
                value = Node::new(of, Body::Children(vec![value]));
            }
            one(emit, "depths", &chain(schema_levels, code, 0), value);
        }
    }
}

/// Many columns, many elements, elements of several records.
fn widths(emit: &mut Emit) {
    for columns in [255, 256, 300, 1_000] {
        let value = tuple(vec![Node::new(8, Body::Data([7, 0, 0, 0, 0, 0, 0, 0])); columns]);
        one(emit, "widths", &fan(19, columns, 8), value);
    }
    for items in [254, 255, 256, 257, 5_000, 70_000] {
        for code in [17, 18] {
            let item = Node::nothing();
            one(
                emit,
                "widths",
                &fan(code, 2, 0),
                Node::new(kind::REPEATED, Body::Children(vec![item; items])),
            );
        }
    }
    let item = tuple(vec![
        Node::new(13, Body::Payload(b"element".to_vec())),
        Node::new(7, Body::Payload((0..32).collect())),
        Node::new(1, Body::Data([1, 0, 0, 0, 0, 0, 0, 0])),
    ]);
    let column = [Plan::new(17, 1), Plan::new(19, 3), Plan::new(13, 0), Plan::new(7, 0), Plan::new(1, 0)];
    one(emit, "widths", &column, Node::new(kind::REPEATED, Body::Children(vec![item; 500])));
}

/// A table of every kind, of which each byte takes each of some values; cut at every byte; and its store.
fn every_byte(emit: &mut Emit) {
    let column = [
        Plan::new(19, 5),
        Plan::new(15, 2),
        Plan::new(17, 2),
        Plan::new(1, 0),
        Plan::new(6, 0),
        Plan::new(14, 0),
        Plan::new(0, 0),
        Plan::new(13, 0),
        Plan::new(1, 0),
        Plan::new(3, 0),
    ];
    let number = |code: u8, byte: u8| Node::new(code, Body::Data([byte, 0, 0, 0, 0, 0, 0, 0]));
    let value = tuple(vec![tuple(vec![
        Node::new(
            kind::VARIANT,
            Body::Children(vec![Node::new(13, Body::Payload(b"ab".to_vec())).chosen(1, 2)]),
        ),
        Node::new(kind::REPEATED, Body::Children(vec![number(1, 1), number(3, 9).chosen(1, 2)])),
        number(1, 0),
        Node::new(6, Body::Payload((0..16).collect())),
        Node::new(14, Body::Payload(b"c".to_vec())),
    ])]);
    let right =
        WriteCase { schema: schema_of(&table_of(&column)), value: lay_out(&value), output: 0, position: 0 };
    emit("every byte", right.clone());
    for at in 0..right.value.records.len() {
        let was = right.value.records[at];
        let mut bytes = vec![0, 1, 2, 3, 15, 16, 17, 18, 31, 33, 0x7F, 0x80, 0xFE, 0xFF];
        bytes.extend([was.wrapping_add(1), was.wrapping_sub(1), was ^ 0x40]);
        for byte in bytes {
            let mut case = right.clone();
            case.value.records[at] = byte;
            emit("every byte", case);
        }
        let mut case = right.clone();
        case.value.records.truncate(at);
        emit("every byte", case);
    }
    for bytes in 0..right.value.payload.len() + 3 {
        let mut case = right.clone();
        case.value.payload.resize(bytes, 0x77);
        emit("every byte", case);
    }
    // A second tree, a copy of each record at each place, and each record gone.
    let count = right.value.records.len() / 16;
    for from in 0..count {
        for to in 0..=count {
            let mut case = right.clone();
            let record = case.value.records[from * 16..from * 16 + 16].to_vec();
            case.value.records.splice(to * 16..to * 16, record);
            emit("every byte", case);
        }
        let mut case = right.clone();
        case.value.records.drain(from * 16..from * 16 + 16);
        emit("every byte", case);
    }
    let mut case = right.clone();
    case.value.records.extend_from_slice(&right.value.records);
    emit("every byte", case);
}
