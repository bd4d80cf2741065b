//! Deliveries for the listing program: schema records, names and a stream of rows, as three files. What is
//! drawn depends on chance alone, never on what either side would answer.

use std::collections::BTreeSet;

use plain::listing::{Delivery, MOST_FILE_BYTES, MOST_RECORDS};
use plain::tables::Block;
use plain::wire_type::{fixed_width, INT128, INT256};

use super::rows::damage::{change, TELLING};
use super::rows::edges;
use super::rows::values::{write_row, DOUBLES, SHORT};
use super::trees::{random_plans, random_size, random_table_plans, widened};
use super::writes::draw::number;
use super::{damage, integers, Kind};
use crate::case::Case;
use crate::plan::{fan, lay_out, over, table_of, Plan};
use crate::rng::Rng;

/// Takes the deliveries one by one.
pub type Emit<'a> = dyn FnMut(Kind, Delivery) + 'a;

/// A delivery in the making: all records are one block.
#[derive(Default)]
struct Parts {
    records: Vec<u8>,
    names: Vec<u8>,
    stream: Vec<u8>,
    /// Where the last row starts.
    last: usize,
}

impl Parts {
    fn of(plans: &[Plan]) -> Self {
        let mut parts = Self::default();
        lay_out(plans, &mut parts.records, &mut parts.names);
        parts
    }

    fn with(self, stream: &[u8]) -> Delivery {
        Self { stream: stream.to_vec(), ..self }.delivery()
    }

    fn delivery(self) -> Delivery {
        Delivery { schema: Some(self.records), names: Some(self.names), stream: Some(self.stream) }
    }

    fn write_rows(&mut self, rng: &mut Rng, rows: usize) {
        let block = Block { first: 0, count: (self.records.len() / 16) as u64 };
        for _ in 0..rows {
            self.last = self.stream.len();
            write_row(rng, &SHORT, (0, block), &self.records, &mut self.stream);
        }
    }
}

/// A table whose schema is good but for a rule broken now and then, with a few rows.
fn table(rng: &mut Rng) -> Parts {
    let size = random_size(rng).min(80);
    let mut plans = random_table_plans(rng, size, 2_000);
    for plan in plans.iter_mut().filter(|plan| plan.children == 0 && [15, 16].contains(&plan.code)) {
        // No row has a value of a variant without children.
        if !rng.one_in(20) {
            plan.code = rng.below(15) as u8;
        }
    }
    let plans = if rng.one_in(300) { widened(rng, plans) } else { plans };
    let mut parts = Parts::of(&plans);
    let rows = [0, 1, 1, 2, 2, 3, 5][rng.below(7)];
    parts.write_rows(rng, rows);
    parts
}

/// A value of a type without children, the edges of its width among them.
fn scalar(rng: &mut Rng, code: u8) -> Vec<u8> {
    match code {
        12 if rng.one_in(2) => rng.pick(&DOUBLES).to_le_bytes().to_vec(),
        13 | 14 => {
            let length = if rng.one_in(3) { 0 } else { rng.between(1, 20) };
            let bytes: Vec<u8> = (0..length).map(|_| rng.byte()).collect();
            [&(length as u32).to_le_bytes()[..], &bytes].concat()
        }
        code => match fixed_width(u64::from(code)).expect("the rest have a fixed width") as usize {
            0 => Vec::new(),
            width => number(rng, width),
        },
    }
}

fn scalars(rng: &mut Rng) -> Delivery {
    let codes: Vec<u8> = (0..rng.between(1, 10)).map(|_| rng.below(15) as u8).collect();
    let columns = codes.iter().map(|code| Plan::named(*code, 0, b"c"));
    let plans: Vec<Plan> = [Plan::new(19, codes.len() as u32)].into_iter().chain(columns).collect();
    let mut stream = Vec::new();
    for _ in 0..rng.between(1, 4) {
        stream.extend([0, 0]);
        codes.iter().for_each(|code| stream.extend(scalar(rng, *code)));
    }
    Parts::of(&plans).with(&stream)
}

/// The stream cut somewhere, mostly inside its last row.
fn cut(rng: &mut Rng) -> Delivery {
    let mut parts = table(rng);
    let from = if rng.one_in(4) { 0 } else { parts.last };
    let left = rng.between(from, parts.stream.len());
    parts.stream.truncate(left);
    parts.delivery()
}

fn damaged_stream(rng: &mut Rng) -> Delivery {
    let mut parts = table(rng);
    change(rng, &mut parts.stream);
    parts.delivery()
}

/// Any bytes under a good schema, of a table's tag that is mostly right.
fn random_bytes(rng: &mut Rng) -> Delivery {
    let parts = table(rng);
    let mut stream: Vec<u8> =
        (0..rng.below(24)).map(|_| if rng.one_in(2) { rng.byte() } else { *rng.pick(&TELLING) }).collect();
    for byte in stream.iter_mut().take(2) {
        if !rng.one_in(4) {
            *byte = 0;
        }
    }
    parts.with(&stream)
}

fn bad_schema(rng: &mut Rng) -> Delivery {
    let mut parts = table(rng);
    match rng.below(7) {
        0 | 1 => {
            let Parts { records, names, .. } = std::mem::take(&mut parts);
            let mut case = Case { records, names, ..Case::default() };
            damage::damage_record(rng, &mut case);
            parts = Parts { records: case.records, names: case.names, ..Parts::default() };
            let length = rng.below(12);
            parts.stream = (0..length).map(|_| *rng.pick(&TELLING)).collect();
        }
        2 => change(rng, &mut parts.records),
        3 => {
            let left = rng.below(parts.records.len());
            parts.records.truncate(left);
        }
        4 => {
            let left = rng.below(parts.names.len() + 1);
            parts.names.truncate(left);
        }
        5 => {
            let size = rng.between(1, 12);
            let mut any = Parts::of(&random_plans(rng, size, 4));
            any.write_rows(rng, 1);
            parts = any;
        }
        _ => {
            // Several blocks one after another are no table.
            let Case { records, names, .. } = damage::damaged(rng);
            parts = Parts { records, names, ..parts };
        }
    }
    parts.delivery()
}

fn missing(rng: &mut Rng) -> Delivery {
    let mut delivery = table(rng).delivery();
    let which = rng.between(1, 7);
    if which & 1 != 0 {
        delivery.schema = None;
    }
    if which & 2 != 0 {
        delivery.names = None;
    }
    if which & 4 != 0 {
        delivery.stream = None;
    }
    delivery
}

/// A row of a list with so many elements, two bytes each: a tag and an int8.
fn list_row(items: usize) -> Vec<u8> {
    let elements: Vec<u8> = (0..items).flat_map(|item| [(item % 2) as u8, item as u8]).collect();
    [&[0, 0][..], &elements, &[255]].concat()
}

/// Rows with about as many records as there is room for, between shorter ones.
fn many_records(rng: &mut Rng) -> Delivery {
    let around = |rng: &mut Rng| rng.between(MOST_RECORDS - 5, MOST_RECORDS + 1);
    let rows: Vec<usize> = match rng.below(4) {
        0 => vec![around(rng)],
        1 => vec![around(rng), rng.below(4)],
        2 => vec![rng.below(4), around(rng), rng.below(4)],
        _ => vec![around(rng), around(rng)],
    };
    let stream: Vec<u8> = rows.into_iter().flat_map(list_row).collect();
    Parts::of(&table_of(&over(17, &[2, 2]))).with(&stream)
}

/// One file with about as many bytes as it may have: rows over and over, or zeros.
fn long_file(rng: &mut Rng) -> Delivery {
    let mut parts = table(rng);
    let length = MOST_FILE_BYTES - 2 + rng.below(4);
    match rng.below(4) {
        0 => parts.records.resize(length, 0),
        1 => parts.names.resize(length, b'n'),
        _ if parts.stream.is_empty() => parts.stream.resize(length, 0),
        _ => parts.stream = parts.stream.iter().copied().cycle().take(length).collect(),
    }
    parts.delivery()
}

/// One random delivery.
pub fn random(rng: &mut Rng) -> (Kind, Delivery) {
    match rng.below(1_000) {
        0..=399 => ("random rows", table(rng).delivery()),
        400..=529 => ("scalars", scalars(rng)),
        530..=659 => ("cut rows", cut(rng)),
        660..=799 => ("damaged rows", damaged_stream(rng)),
        800..=839 => ("random bytes", random_bytes(rng)),
        840..=949 => ("bad schemas", bad_schema(rng)),
        950..=974 => {
            let mut parts = table(rng);
            parts.names.fill(0xFF);
            ("names not UTF-8", parts.delivery())
        }
        975..=995 => ("missing files", missing(rng)),
        996..=998 => ("about 4,096 records", many_records(rng)),
        _ => ("long files", long_file(rng)),
    }
}

const EDGE: Kind = "listing edge";

/// The rows of the reading calls' bounds, each once; here the settings are always the default ones.
fn reading_edges(emit: &mut Emit) {
    let mut met = BTreeSet::new();
    edges::fixed(&mut |kind, case| {
        let Case { records, names, input, .. } = case;
        // Files that are longer than they may be come up by themselves.
        if [&records, &names, &input].iter().all(|file| file.len() <= MOST_FILE_BYTES + 16) {
            let delivery = Delivery { schema: Some(records), names: Some(names), stream: Some(input) };
            if met.insert(delivery.clone()) {
                emit(kind, delivery);
            }
        }
    });
}

/// Each type's lowest and highest numbers, and what stands beside them; blobs, doubles, truths.
fn values(code: u8) -> Vec<Vec<u8>> {
    match code {
        1 => (0..=255).map(|byte| vec![byte]).collect(),
        12 => DOUBLES
            .iter()
            .chain(&[0, 0x0123_4567_89AB_CDEF])
            .map(|bits| bits.to_le_bytes().to_vec())
            .collect(),
        13 | 14 => {
            let all: Vec<u8> = (0..=255).collect();
            let blob = |bytes: &[u8]| [&(bytes.len() as u32).to_le_bytes()[..], bytes].concat();
            vec![blob(&[]), blob(&[0]), blob(&all), blob(&[0xA0, 0x0A])]
        }
        code => match fixed_width(u64::from(code)).expect("the rest have a fixed width") as usize {
            0 => vec![Vec::new()],
            width => {
                let with = |filling: u8, first: u8, top: u8| {
                    let mut bytes = vec![filling; width];
                    bytes[0] = first;
                    bytes[width - 1] = top;
                    bytes
                };
                let mut values = vec![(1..=width as u8).collect()];
                for top in [0, 0x7F, 0x80, 0xFF] {
                    values.extend([
                        with(0, 0, top),
                        with(0, 1, top),
                        with(0xFF, 0xFF, top),
                        with(0xFF, 0xFE, top),
                    ]);
                }
                values
            }
        },
    }
}

fn each_kind(emit: &mut Emit) {
    for code in 0..=14 {
        for value in values(code) {
            let row = [&[0, 0], &value[..]].concat();
            emit(EDGE, Parts::of(&table_of(&[Plan::new(code, 0)])).with(&row));
            emit(
                EDGE,
                Parts::of(&table_of(&over(16, &[0, code]))).with(&[&[0, 0, 1, 0], &value[..]].concat()),
            );
            let items = [&[0, 0, 1], &value[..], &[1], &value[..], &[255]].concat();
            emit(EDGE, Parts::of(&table_of(&over(17, &[0, code]))).with(&[items, row].concat()));
        }
    }
}

/// Each power of two, its neighbours and their opposites, a row for each.
fn wide_integers(emit: &mut Emit) {
    for (code, width) in [(INT128, 16), (INT256, 32)] {
        let row = |number: Vec<u8>| [&[0, 0], &number[..]].concat();
        let rows: Vec<u8> = integers::edges(width).into_iter().flat_map(row).collect();
        emit(EDGE, Parts::of(&table_of(&[Plan::new(code, 0)])).with(&rows));
    }
}

fn document_table() -> Parts {
    Parts::of(&edges::schema_b())
}

fn files(emit: &mut Emit) {
    let row = [0, 0, 0, 7, 1, 0xFE, 0xFF];
    for which in 0..8 {
        let whole = document_table().with(&row);
        let kept = |bit: i32, file: Option<Vec<u8>>| if which & bit == 0 { file } else { None };
        let Delivery { schema, names, stream } = whole;
        emit(EDGE, Delivery { schema: kept(1, schema), names: kept(2, names), stream: kept(4, stream) });
    }
    for length in [MOST_FILE_BYTES - 1, MOST_FILE_BYTES, MOST_FILE_BYTES + 1] {
        let mut names = document_table();
        names.names.resize(length, b'n');
        emit(EDGE, names.with(&row));
        let mut records = document_table();
        records.records.resize(length, 0);
        emit(EDGE, records.with(&row));
        emit(EDGE, Parts::of(&[Plan::new(19, 0)]).with(&vec![0; length]));
        emit(EDGE, Parts::of(&table_of(&[Plan::new(8, 0)])).with(&vec![0; length]));
        // A blob to the end of the stream.
        let blob = [&[0, 0][..], &(length as u32 - 6).to_le_bytes(), &vec![0xC5; length - 6]].concat();
        emit(EDGE, Parts::of(&table_of(&[Plan::new(13, 0)])).with(&blob));
    }
    // As many columns as a schema file has room for, and one more or less.
    for columns in [MOST_RECORDS - 2, MOST_RECORDS - 1, MOST_RECORDS] {
        let mut plans = vec![Plan::new(19, columns as u32)];
        plans.resize(columns + 1, Plan::named(0, 0, b"c"));
        emit(EDGE, Parts::of(&plans).with(&[0, 0, 0, 0]));
    }
}

fn full_rows(emit: &mut Emit) {
    for records in MOST_RECORDS - 2..=MOST_RECORDS + 2 {
        let full = list_row(records - 2);
        for rows in
            [vec![full.clone()], vec![list_row(1), full.clone(), list_row(0)], vec![full.clone(), full]]
        {
            emit(EDGE, Parts::of(&table_of(&over(17, &[2, 2]))).with(&rows.concat()));
        }
    }
}

/// Rows about as dear as they may be: 48 for each of 5,592,405 nodes, or a long blob behind half as many.
fn dear_rows(emit: &mut Emit) {
    let tuples = |plans: &mut Vec<Plan>| plans.extend(fan(19, 2_000, 0));
    let mut plans = vec![Plan::new(19, 1), Plan::named(17, 1, b"c")];
    tuples(&mut plans);
    for items in [2_793, 2_794, 2_795, 2_796, 2_797] {
        emit(EDGE, Parts::of(&plans).with(&[&[0, 0][..], &vec![0; items], &[255]].concat()));
    }
    let mut plans = vec![Plan::new(19, 2), Plan::named(17, 1, b"c"), Plan::named(13, 0, b"d")];
    tuples(&mut plans);
    // Root, list, blob and 1,398 tuples of 2,001 nodes are charged 134,275,248.
    for length in [134_160_207_u32, 134_160_208, 134_160_209, 134_217_728, 134_217_729] {
        let row = [&[0, 0][..], &vec![0; 1_398], &[255], &length.to_le_bytes()].concat();
        emit(EDGE, Parts::of(&plans).with(&row));
    }
}

fn refused_schemas(emit: &mut Emit) {
    for plans in [
        vec![Plan::new(13, 0)],
        vec![Plan::new(19, 1), Plan::new(8, 0)],
        vec![Plan::new(19, 1), Plan::named(8, 0, b"")],
        vec![Plan::new(19, 1), Plan::named(8, 1, b"c"), Plan::new(0, 0)],
        vec![],
    ] {
        for stream in [&[][..], &[0, 0], &[1, 0], &[0]] {
            emit(EDGE, Parts::of(&plans).with(stream));
        }
    }
    emit(EDGE, document_table().with(&[1, 0]));
}

/// Every fixed delivery.
pub fn fixed(emit: &mut Emit) {
    reading_edges(emit);
    each_kind(emit);
    wide_integers(emit);
    files(emit);
    full_rows(emit);
    dear_rows(emit);
    refused_schemas(emit);
}
