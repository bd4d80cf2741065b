//! Document 01's rows, and both sides of every bound that a row can meet: wide tags, deep schemas, many
//! tables, long blobs, settings and positions.

use std::collections::BTreeSet;

use plain::settings::{Settings, MOST, MOST_NODE_CHARGE};

use super::usual;
use super::values::DOUBLES;
use crate::case::{op, Case};
use crate::generate::{Emit, Kind};
use crate::plan::{chain, fan, inline, lay_out, over, put_name, table_of, words, Plan};

const KIND: Kind = "reading edge";

/// A format of inline tables.
fn format(tables: &[Vec<Plan>]) -> Case {
    let mut case = Case::default().with_settings(usual());
    for plans in tables {
        let block = lay_out(plans, &mut case.records, &mut case.names);
        case.references.extend(inline(block));
    }
    case
}

/// tuple("page" uint8, "name" variant8(nothing, string32)).
pub fn schema_a() -> Vec<Plan> {
    let columns = [Plan::named(8, 0, b"page"), Plan::named(15, 2, b"name")];
    [&[Plan::new(19, 2)], &columns[..], &[Plan::new(0, 0), Plan::new(13, 0)]].concat()
}

/// tuple("v" repeated_variant8(boolean, int8)).
pub fn schema_b() -> Vec<Plan> {
    vec![Plan::new(19, 1), Plan::named(17, 2, b"v"), Plan::new(1, 0), Plan::new(2, 0)]
}

/// Both calls, at each of some positions.
fn read(format: &Case, input: &[u8], emit: &mut Emit) {
    for a in [0, input.len() as u64, input.len() as u64 + 1] {
        emit(KIND, Case { op: op::SKIP, a, input: input.to_vec(), ..format.clone() });
    }
    emit(KIND, Case { op: op::RUN, input: input.to_vec(), ..format.clone() });
}

/// The row of schema A that has everything.
pub const FULL: [u8; 10] = [0, 0, 0x25, 1, 2, 0, 0, 0, 0xD1, 0xC5];

fn document_rows(emit: &mut Emit) {
    let a = format(&[schema_a()]);
    let rows: [&[u8]; 6] = [&[], &[0], &[1, 0], &[0, 0], &[0, 0, 0x25, 0], &[0, 0, 0x25, 2]];
    rows.into_iter().for_each(|row| read(&a, row, emit));
    for length in 0..=FULL.len() {
        read(&a, &FULL[..length], emit);
        read(&a, &[&FULL[..], &FULL[..length]].concat(), emit);
    }
    for (blob_bytes, row_bytes) in [(2, 194), (2, 193), (1, 192), (1, 191), (0, 47), (0, 0)] {
        read(&a.clone().with_settings(limits(blob_bytes, row_bytes)), &FULL, emit);
    }
    read(&a.clone().with_settings(limits(0, 0)), &[1, 0], emit);
    let b = format(&[schema_b()]);
    let rows: [&[u8]; 3] = [&[0, 0, 0, 7, 1, 0xFE, 0xFF], &[0, 0, 0xFF], &[0, 0, 2]];
    rows.into_iter().for_each(|row| read(&b, row, emit));
}

/// With one limit for both types of blobs.
fn limits(blob_bytes: u64, max_row_bytes: u64) -> Settings {
    Settings { max_row_bytes, ..usual() }.with_max_blob_bytes(blob_bytes)
}

fn settings_and_positions(emit: &mut Emit) {
    let a = format(&[schema_a()]);
    for max_row_bytes in [0, 47, 48, 95, 96, 143, 144, 191, 192, 193, 194, 195] {
        for blob_bytes in [0, 1, 2, 3] {
            let case = a.clone().with_settings(limits(blob_bytes, max_row_bytes));
            [&FULL[..], &FULL[..9], &[1, 0]].into_iter().for_each(|input| read(&case, input, emit));
        }
    }
    let charges = [0, 1, 48, 4_095, 4_096, 4_097, (1 << 32) + 48, u64::MAX];
    let bounds = [0, 1, 2, 194, 4_294_967_294, MOST, MOST + 1, u64::MAX];
    for node_charge in charges {
        for blob_bytes in bounds {
            for row_bytes in bounds {
                let settings = Settings { node_charge, ..limits(blob_bytes, row_bytes) };
                read(&a.clone().with_settings(settings), &FULL, emit);
            }
        }
    }
    // A bad format, or none at all, beside a bad position, a bad setting and an end of stream.
    let mut bad = a.clone();
    bad.records[0] = 20;
    let none = Case { references: Vec::new(), ..a.clone() };
    for case in [&a, &bad, &none] {
        for position in 0..=12 {
            emit(KIND, Case { op: op::SKIP, a: position, input: FULL.to_vec(), ..case.clone() });
        }
        for position in [1 << 32, (1 << 32) + 10, u64::MAX] {
            emit(KIND, Case { op: op::SKIP, a: position, input: FULL.to_vec(), ..case.clone() });
        }
        read(case, &[], emit);
        read(&case.clone().with_settings(Settings { node_charge: 0, ..usual() }), &[], emit);
    }
}

/// Each setting at its bounds and one past them while the others are usual, over a row and over the tag of
/// a table that is not there.
fn bounds(emit: &mut Emit) {
    let a = format(&[schema_a()]);
    let charges = [0, 1, MOST_NODE_CHARGE, MOST_NODE_CHARGE + 1];
    let charges = charges.map(|node_charge| Settings { node_charge, ..usual() });
    let bounds = [0, MOST, MOST + 1];
    let strings = bounds.map(|max_string32_bytes| Settings { max_string32_bytes, ..usual() });
    let ysons = bounds.map(|max_yson32_bytes| Settings { max_yson32_bytes, ..usual() });
    let rows = bounds.map(|max_row_bytes| Settings { max_row_bytes, ..usual() });
    for settings in [usual()].into_iter().chain(charges).chain(strings).chain(ysons).chain(rows) {
        let case = a.clone().with_settings(settings);
        read(&case, &FULL, emit);
        read(&case, &[1, 0], emit);
    }
}

/// Length fields at the limits, with as many bytes behind them or not.
fn blobs(emit: &mut Emit) {
    for code in [13, 14] {
        let column = format(&[table_of(&[Plan::new(code, 0)])]);
        let lengths = [0, 1, 255, 256, 65_535, 65_536, 134_217_728, 134_217_729, u32::MAX - 1, u32::MAX];
        for length in lengths {
            let cost = 96 + u64::from(length);
            let rows = [cost - 1, cost, cost + 1, 268_435_456, MOST];
            for max_row_bytes in rows.into_iter().filter(|limit| *limit <= MOST) {
                for blob in [u64::from(length).saturating_sub(1), u64::from(length), 134_217_728, MOST] {
                    let case = column.clone().with_settings(limits(blob, max_row_bytes));
                    let mut input = vec![0, 0];
                    input.extend(length.to_le_bytes());
                    read(&case, &input, emit);
                    if length <= 65_536 {
                        input.resize(6 + length as usize, 0x40);
                        read(&case, &input[..input.len() - usize::from(length > 0)], emit);
                        read(&case, &input, emit);
                        input.push(0);
                        read(&case, &input, emit);
                    }
                }
            }
        }
    }
}

/// tuple("s" string32, "y" yson32).
pub fn schema_of_blobs() -> Vec<Plan> {
    vec![Plan::new(19, 2), Plan::named(13, 0, b"s"), Plan::named(14, 0, b"y")]
}

fn blob(length: usize) -> Vec<u8> {
    [&(length as u32).to_le_bytes()[..], &vec![0x42; length]].concat()
}

/// A row of them that has so many bytes in each.
pub fn row_of_blobs(lengths: [usize; 2]) -> Vec<u8> {
    let [string, yson] = lengths.map(blob);
    [&[0, 0][..], &string, &yson].concat()
}

/// Tables that have blobs of both types, of one, or of none, and a stream of each, in whose rows the blobs have so
/// many bytes.
fn streams_of_blobs(lengths: [usize; 2]) -> Vec<(Case, Vec<u8>)> {
    let column = |plans: &[Plan]| format(&[table_of(plans)]);
    let (strings, ysons) = ([Plan::new(13, 0)], [Plan::new(14, 0)]);
    let turned = vec![Plan::new(19, 2), Plan::named(14, 0, b"y"), Plan::named(13, 0, b"s")];
    let [s, y] = &lengths.map(blob);
    let row = [0, 0];
    vec![
        (format(&[schema_of_blobs()]), row_of_blobs(lengths)),
        (format(&[turned]), [&row[..], y, s].concat()),
        (column(&over(19, &[14, 13, 14])), [&row[..], y, s, y].concat()),
        (column(&over(15, &[13, 14])), [&row[..], &[0], s, &row, &[1], y].concat()),
        (column(&over(18, &[14, 13])), [&row[..], &[0, 0], y, &[1, 0], s, &[0, 0], y, &[255; 2]].concat()),
        (format(&[table_of(&strings), table_of(&ysons)]), [&row[..], s, &[1, 0], y, &row, s].concat()),
        (column(&strings), [&row[..], s].concat()),
        (column(&ysons), [&row[..], y].concat()),
        (format(&[schema_b()]), [&row[..], &[255]].concat()),
    ]
}

/// Settings with these limits for string32 and yson32.
pub fn blob_limits([max_string32_bytes, max_yson32_bytes]: [u64; 2]) -> Settings {
    Settings { max_string32_bytes, max_yson32_bytes, ..usual() }
}

/// How long a string32 and a yson32 are whose limits are tried in pairs.
pub const BLOB_LENGTHS: [[usize; 2]; 5] = [[2, 3], [3, 2], [1, 1], [0, 2], [2, 0]];

/// Each limit at its blob's length, one below it and one above, at 0, at its largest and past it, with each of the
/// other.
pub fn limits_around(lengths: [usize; 2]) -> Vec<[u64; 2]> {
    let [strings, ysons] = lengths.map(|length| {
        let length = length as u64;
        BTreeSet::from([length.saturating_sub(1), length, length + 1, 0, MOST, MOST + 1])
    });
    strings.iter().flat_map(|string32| ysons.iter().map(|yson32| [*string32, *yson32])).collect()
}

/// Two limits in all pairs; then the limits of rows, which come after those of blobs, and cuts, which come after both.
fn two_blob_limits(emit: &mut Emit) {
    for lengths in BLOB_LENGTHS {
        for (case, input) in streams_of_blobs(lengths) {
            for limits in limits_around(lengths) {
                read(&case.clone().with_settings(blob_limits(limits)), &input, emit);
            }
        }
    }
    let (both, input) = (format(&[schema_of_blobs()]), row_of_blobs([2, 3]));
    let cost = 3 * usual().node_charge + 5;
    let near = [[2, 3], [1, 3], [3, 2], [1, 2], [0, MOST], [MOST, 0]];
    let far = [[(1 << 32) + 2, 3], [2, (1 << 32) + 3], [u64::MAX, 3], [2, u64::MAX]];
    for limits in near.into_iter().chain(far) {
        for max_row_bytes in [cost - 4, cost - 3, cost - 1, cost] {
            let case = both.clone().with_settings(Settings { max_row_bytes, ..blob_limits(limits) });
            (0..=input.len()).for_each(|length| read(&case, &input[..length], emit));
        }
    }
}

/// What a sample has to have of two limits beside their bounds: each at its blob's length, with the other at 0 too,
/// one below it, and past its largest where no such blob can occur.
fn few_blob_limits(emit: &mut Emit) {
    let both = format(&[schema_of_blobs()]);
    for (lengths, limits) in
        [([2, 3], [2, 3]), ([2, 3], [1, 3]), ([2, 3], [3, 2]), ([2, 0], [2, 0]), ([0, 3], [0, 3])]
    {
        read(&both.clone().with_settings(blob_limits(limits)), &row_of_blobs(lengths), emit);
    }
    let ysons = format(&[table_of(&[Plan::new(14, 0)])]);
    read(&ysons.with_settings(blob_limits([MOST + 1, 3])), &[&[0, 0][..], &blob(3)].concat(), emit);
}

/// The largest tags, the end tags, and tags just past the children.
fn tags(emit: &mut Emit) {
    for (code, count) in [(15, 255), (15, 256), (17, 254), (17, 255)] {
        let column = format(&[table_of(&fan(code, count, 8))]);
        for tag in 252..=255 {
            for end in [&[][..], &[7], &[7, 255], &[7, 255, 0, 0]] {
                read(&column, &[&[0, 0, tag], end].concat(), emit);
            }
        }
    }
    for (code, count) in [(16, 65_535), (16, 65_536), (18, 65_534), (18, 65_535)] {
        let column = format(&[table_of(&fan(code, count, 8))]);
        for tag in [0, 255, 256, 65_533, 65_534, 65_535_u16] {
            let [low, high] = tag.to_le_bytes();
            read(&column, &[0, 0, low, high, 7, 255, 255], emit);
        }
    }
    // Small ones again, in which a tag of two bytes is not its first byte.
    for code in [16, 18] {
        let column = format(&[table_of(&fan(code, 2, 8))]);
        for tag in [0, 1, 2, 255, 256, 257, 0xFF00, 0xFFFE, 0xFFFF_u16] {
            let [low, high] = tag.to_le_bytes();
            read(&column, &[0, 0, low, high, 7, 255, 255], emit);
        }
    }
}

/// A chain of nodes of one type: tuples that cost nothing on the wire, variants, or lists of lists.
fn deep(levels: usize, code: u8, emit: &mut Emit) {
    let column = format(&[table_of(&chain(levels, code, 8))]);
    let mut input = vec![0, 0];
    input.extend(vec![0; (levels - 1) * [1, 2, 1, 2, 0][code as usize - 15] + 1]);
    read(&column, &input, emit);
    read(&column, &input[..input.len() - 1], emit);
    input.extend([255; 140]);
    read(&column, &input, emit);
    for nodes in [levels, levels + 1, levels + 2] {
        let max_row_bytes = nodes as u64 * usual().node_charge;
        read(&column.clone().with_settings(Settings { max_row_bytes, ..usual() }), &input, emit);
    }
}

fn depths(emit: &mut Emit) {
    for code in [15, 16, 17, 18, 19] {
        [62, 63, 64].into_iter().for_each(|levels| deep(levels, code, emit));
    }
}

/// Tags of tables that are there, just not there, and far from it; and tables by name.
fn many_tables(emit: &mut Emit) {
    let one = format(&[vec![Plan::new(19, 0)], schema_b()]);
    for tables in [1, 2, 255, 256, 257, 65_535, 65_536, 65_537] {
        let mut case = one.clone();
        case.references = one.references[..16].repeat(tables - 1);
        case.references.extend(&one.references[16..]);
        let last = tables as u64 - 1;
        for tag in [0, last.saturating_sub(1), last, last + 1, 65_535] {
            let Ok(tag) = u16::try_from(tag) else { continue };
            read(&case, &[&tag.to_le_bytes()[..], &[0, 7, 255]].concat(), emit);
        }
    }
    let mut case = format(&[vec![Plan::new(19, 0)]]);
    let block = lay_out(&schema_a(), &mut case.records, &mut case.names);
    let other = lay_out(&schema_b(), &mut case.records, &mut case.names);
    for (name, block) in [(&b"apart"[..], other), (b"page", block)] {
        let start = put_name(&mut case.names, name);
        let length = name.len() as u32;
        case.registry.extend(words([start, length, block.first as u32, block.count as u32]));
        case.references.extend(words([1, start, length, 0]));
    }
    let rows: [&[u8]; 4] = [&[0, 0], &[1, 0, 0, 7, 255], &[2, 0, 0x25, 0], &[3, 0]];
    rows.into_iter().for_each(|row| read(&case, row, emit));
    read(&case, &rows.concat(), emit);
}

/// Rows of the wide and narrow scalars, cut at every byte.
fn scalars(emit: &mut Emit) {
    for code in 0..13 {
        let column = format(&[table_of(&[Plan::new(code, 0)])]);
        (0..=40).for_each(|length| read(&column, &vec![0; length], emit));
        for charge in [1, usual().node_charge, 4_096] {
            for limit in [charge - 1, charge, 2 * charge - 1, 2 * charge] {
                let settings = Settings { node_charge: charge, max_row_bytes: limit, ..usual() };
                read(&column.clone().with_settings(settings), &[0; 40], emit);
            }
        }
    }
}

/// One column, and values of it that a value table keeps in a way of its own: a boolean by its truth, a
/// double by its bits, wide integers and blobs as payload, an element of a list with its tag.
fn kept_values(emit: &mut Emit) {
    let leaf = |code: u8| vec![Plan::new(code, 0)];
    let numbered = |count: u8| (1..=count).collect();
    let mut rows: Vec<(Vec<Plan>, Vec<u8>)> = vec![
        (leaf(1), vec![2]),
        (leaf(6), numbered(16)),
        (leaf(7), numbered(32)),
        (leaf(13), vec![0; 4]),
        (leaf(13), vec![2, 0, 0, 0, b'h', b'i']),
        (leaf(14), vec![1, 0, 0, 0, b'#']),
        (over(16, &[6, 13]), vec![1, 0, 1, 0, 0, 0, b'x']),
        (over(17, &[1, 2]), vec![1, 0x80, 0, 2, 0, 0, 255]),
        (over(18, &[0, 13]), vec![1, 0, 1, 0, 0, 0, b'y', 0, 0, 255, 255]),
    ];
    rows.extend(DOUBLES.map(|bits| (leaf(12), bits.to_le_bytes().to_vec())));
    for (column, value) in rows {
        read(&format(&[table_of(&column)]), &[&[0, 0], &value[..]].concat(), emit);
    }
}

/// Counts that pass 16 bits, and a cost that passes 32: many rows, many nodes, much payload.
fn large(emit: &mut Emit) {
    let empty = format(&[vec![Plan::new(19, 0)]]);
    let mut rows = vec![0; 2 * 70_000];
    read(&empty, &rows, emit);
    rows.push(0);
    read(&empty, &rows, emit);
    let a = format(&[schema_a()]);
    read(&a, &FULL.repeat(3_000), emit);
    read(&a, &[&FULL.repeat(3_000)[..], &FULL[..7]].concat(), emit);
    let list = |items: usize| [&[0, 0][..], &vec![0; items], &[255]].concat();
    let nothings = format(&[table_of(&fan(17, 1, 0))]);
    read(&nothings, &list(70_000), emit);
    read(&nothings, &[list(70_000), list(3), list(0)].concat(), emit);
    // Root, list and elements at 4,096 each: 1,048,575 of them are just within the largest limit.
    let dear = Settings { node_charge: 4_096, ..limits(MOST, MOST) };
    for nodes in [1_048_574, 1_048_575, 1_048_576, 1_048_577] {
        read(&nothings.clone().with_settings(dear), &list(nodes - 2), emit);
    }
    let wide = format(&[table_of(&fan(17, 1, 7))]);
    let elements = [&[0][..], &[0x77; 32]].concat().repeat(3_000);
    read(&wide, &[&[0, 0][..], &elements, &[255]].concat(), emit);
}

/// Formats that are refused for what they are, and their neighbours that are not: a level or a child
/// more than there may be.
fn format_bounds(emit: &mut Emit) {
    for levels in [63, 64] {
        read(&format(&[table_of(&chain(levels, 19, 8))]), &[0, 0, 7], emit);
    }
    for (code, count) in [(15, 256), (15, 257), (17, 255), (17, 256)] {
        read(&format(&[table_of(&fan(code, count, 2))]), &[0, 0, 254, 7, 255], emit);
    }
}

pub fn fixed(emit: &mut Emit) {
    document_rows(emit);
    format_bounds(emit);
    settings_and_positions(emit);
    blobs(emit);
    two_blob_limits(emit);
    tags(emit);
    depths(emit);
    many_tables(emit);
    large(emit);
    scalars(emit);
    kept_values(emit);
}

/// What a sample has to have, whatever else is in it: document 01's rows, the bounds of the settings and of
/// a schema, and values of each form; from other positions than the start one row alone.
pub fn few(emit: &mut Emit) {
    let mut at_start = |kind, case: Case| {
        if case.a == 0 || (case.input == FULL && case.settings() == usual()) {
            emit(kind, case);
        }
    };
    document_rows(&mut at_start);
    bounds(&mut at_start);
    few_blob_limits(&mut at_start);
    let mut skipped = |kind, case: Case| {
        if case.op == op::SKIP {
            at_start(kind, case);
        }
    };
    kept_values(&mut skipped);
    read(&format(&[table_of(&chain(63, 19, 8))]), &[0, 0, 7], &mut skipped);
    read(&format(&[table_of(&fan(17, 255, 2))]), &[0, 0, 254, 7, 255], &mut skipped);
    read(&format(&[table_of(&chain(64, 19, 8))]), &[0, 0, 7], &mut at_start);
    read(&format(&[table_of(&fan(17, 256, 2))]), &[0, 0, 254, 7, 255], &mut at_start);
}
