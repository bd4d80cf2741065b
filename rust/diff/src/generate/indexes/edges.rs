//! Small streams whose indexes are gone through one by one: every length of the slice, every bit, every count at and
//! past an edge.

use plain::indexing::{accepted, IndexRecord};
use plain::settings::{Settings, MOST};

use super::lend;
use crate::case::{op, Case};
use crate::generate::rows::edges::{
    blob_limits, limits_around, row_of_blobs, schema_a, schema_b, schema_of_blobs, FULL,
};
use crate::generate::rows::{self, usual};
use crate::generate::Kind;
use crate::indexing::{filled, plainly, Call, IndexCase, CALLS};
use crate::plan::{chain, fan, inline, lay_out, table_of, Plan};
use crate::room::{Room, Slack};

const KIND: Kind = "index edge";

/// Takes the cases one by one.
pub type Emit<'a> = dyn FnMut(Kind, IndexCase) + 'a;

/// Tables of A, of B and of no columns, and this input.
fn stream(input: &[u8]) -> Case {
    let mut case = Case { op: op::RUN, input: input.to_vec(), ..Case::default() }.with_settings(usual());
    for plans in [schema_a(), schema_b(), vec![Plan::new(19, 0)]] {
        let block = lay_out(&plans, &mut case.records, &mut case.names);
        case.references.extend(inline(block));
    }
    case
}

/// A row of each table, of 10, 5 and 2 bytes.
fn three_rows() -> Case {
    stream(&[&FULL[..], &[1, 0, 1, 7, 255], &[2, 0]].concat())
}

fn call(call: Call, stream: &Case, index: &[u8], number: u64) -> IndexCase {
    let case = IndexCase { call, stream: stream.clone(), index: index.to_vec(), number, lent: [0, 0] };
    if call == Call::Row {
        lend(case, Room::EXACT)
    } else {
        case
    }
}

fn index_of(stream: &Case) -> Vec<u8> {
    accepted(&plainly(stream)).index()
}

/// Each call with the index whole: of these counts the edges are among.
fn all_calls(stream: &Case, index: &[u8], numbers: &[u64], emit: &mut Emit) {
    emit(KIND, call(Call::Build, stream, index, 0));
    emit(KIND, call(Call::Check, stream, index, 0));
    for number in numbers {
        emit(KIND, call(Call::Extend, stream, index, *number));
        emit(KIND, call(Call::Row, stream, index, *number));
    }
}

/// Counts at the edges of so many records, and such as would do if cut to 32 bits or to the 60 that a multiple of
/// sixteen has.
fn counts(records: u64) -> Vec<u64> {
    let mut counts: Vec<u64> = (0..=records + 2).collect();
    for far in [1 << 28, 1 << 32, 1 << 60, u64::MAX - 15, u64::MAX - 2] {
        counts.extend([far - 1, far, far + 1, far + 2]);
    }
    counts
}

/// Slices of every length up to a record more than is needed, and every count.
fn lengths(emit: &mut Emit) {
    for input in [&[][..], &[2, 0], &three_rows().input] {
        let stream = stream(input);
        let whole = index_of(&stream);
        for bytes in 0..=whole.len() + 33 {
            let mut index = whole.clone();
            index.resize(bytes, 0x5C);
            all_calls(&stream, &index, &counts(3), emit);
            all_calls(&stream, &filled(2, bytes), &[0, 1], emit);
        }
    }
}

/// Each bit of each record.
fn bits(emit: &mut Emit) {
    let stream = three_rows();
    let whole = index_of(&stream);
    for bit in 0..whole.len() * 8 {
        let mut index = whole.clone();
        index[bit / 8] ^= 1 << (bit % 8);
        all_calls(&stream, &index, &[0, 1, 2, 3], emit);
        // Room for the records whose old ones are looked at, and a byte less than that.
        index.pop();
        all_calls(&stream, &index, &[0, 1, 2, 3], emit);
    }
}

/// One record with any of these fields, for a row in the middle.
fn fields(emit: &mut Emit) {
    let stream = three_rows();
    let length = stream.input.len() as u64;
    let offsets = [0, 1, 9, 10, 11, 15, length - 1, length, length + 1, MOST, MOST + 1, (1 << 32) + 10];
    let far = [1 << 63, (1 << 63) + 10, u64::MAX - 4, u64::MAX];
    let whole = index_of(&stream);
    for offset in offsets.into_iter().chain(far) {
        for length in [0, 4, 5, 6, MOST] {
            for table in [0, 1, 2, 65_536 + 1, MOST] {
                let record = IndexRecord { offset, length, table }.in_bytes();
                let index = [&whole[..16], &record, &whole[32..]].concat();
                all_calls(&stream, &index, &[1, 2], emit);
            }
        }
    }
}

/// Row n with just enough room, and with a byte or a record less of either slice.
fn rooms(emit: &mut Emit) {
    let stream = three_rows();
    let whole = index_of(&stream);
    let mut wrong = whole.clone();
    wrong[8] ^= 1;
    let slacks =
        [Slack::More(0), Slack::More(15), Slack::Less(1), Slack::Less(16), Slack::Less(17), Slack::Nothing];
    for index in [&whole, &wrong] {
        for n in 0..4 {
            for records in slacks {
                for payload in slacks {
                    let case = call(Call::Row, &stream, index, n);
                    emit(KIND, lend(case, Room { records, payload }));
                }
            }
        }
    }
}

/// Streams that are cut or go wrong after some rows, with the index of those, and settings and formats that are
/// refused: what comes first goes first.
fn refused(emit: &mut Emit) {
    let good = three_rows();
    let mut bad_format = good.clone();
    bad_format.records[0] = 20;
    let mut bad_name = good.clone();
    bad_name.names[0] = 0xC0;
    let mut no_tables = good.clone();
    no_tables.references.clear();
    let no_charge = good.clone().with_settings(Settings { node_charge: 0, ..usual() });
    let poor = good.clone().with_settings(Settings { max_row_bytes: 100, ..usual() });
    let mut wrong_tag = good.clone();
    wrong_tag.input[3] = 2;
    let mut no_table = good.clone();
    no_table.input[15] = 3;
    let cut = stream(&good.input[..good.input.len() - 1]);
    for stream in [&good, &bad_format, &bad_name, &no_tables, &no_charge, &poor, &wrong_tag, &no_table, &cut]
    {
        for bytes in [0, 15, 16, 31, 32, 47, 48, 49, 64] {
            let mut index = index_of(&good);
            index.resize(bytes, 0x5C);
            all_calls(stream, &index, &[0, 1, 2, 3, 4, 5, u64::MAX], emit);
        }
    }
}

/// Two rows of 11 and 15 bytes, each with a string32 and a yson32, under a limit for each type.
fn two_rows_of_blobs(limits: [u64; 2]) -> Case {
    let input = [row_of_blobs([1, 0]), row_of_blobs([2, 3])].concat();
    let mut case = Case { op: op::RUN, input, ..Case::default() }.with_settings(blob_limits(limits));
    let block = lay_out(&schema_of_blobs(), &mut case.records, &mut case.names);
    case.references.extend(inline(block));
    case
}

/// The two limits in all pairs: the run is refused at the second row, or not at all.
fn two_blob_limits(emit: &mut Emit) {
    let whole = index_of(&two_rows_of_blobs([2, 3]));
    for limits in limits_around([2, 3]) {
        let stream = two_rows_of_blobs(limits);
        for bytes in [16, 31, 32, 48] {
            let mut index = whole.clone();
            index.resize(bytes, 0x5C);
            all_calls(&stream, &index, &[0, 1, 2, 3], emit);
        }
    }
}

/// What a sample has to have of two limits: each at its longest blob, with the other at 0 too, one below it, and past
/// its largest where no such blob can occur.
fn few_blob_limits(emit: &mut Emit) {
    let whole = index_of(&two_rows_of_blobs([2, 3]));
    for limits in [[2, 3], [1, 3], [3, 2]] {
        let stream = two_rows_of_blobs(limits);
        CALLS.into_iter().for_each(|one| emit(KIND, call(one, &stream, &whole, 1)));
    }
    for (code, limits) in [(13, [2, 0]), (14, [0, 2]), (13, [2, MOST + 1]), (14, [MOST + 1, 2])] {
        let input = vec![0, 0, 2, 0, 0, 0, 7, 7];
        let mut stream = Case { op: op::RUN, input, ..Case::default() };
        let plans = table_of(&[Plan::new(code, 0)]);
        let block = lay_out(&plans, &mut stream.records, &mut stream.names);
        stream.references.extend(inline(block));
        let index = index_of(&stream.clone().with_settings(usual()));
        let stream = stream.with_settings(blob_limits(limits));
        CALLS.into_iter().for_each(|one| emit(KIND, call(one, &stream, &index, 0)));
    }
}

/// The rows of document 01, each with its own index and with none.
fn document_rows(emit: &mut Emit) {
    let mut take = |_, case: Case| {
        let stream = Case { op: op::RUN, a: 0, ..case };
        let whole = index_of(&stream);
        all_calls(&stream, &whole, &[0, 1], emit);
        all_calls(&stream, &[], &[0], emit);
    };
    rows::edges::few(&mut take);
}

pub fn fixed(emit: &mut Emit) {
    lengths(emit);
    bits(emit);
    fields(emit);
    rooms(emit);
    refused(emit);
    two_blob_limits(emit);
    document_rows(emit);
}

/// What a sample has to have, whatever else is in it.
pub fn few(emit: &mut Emit) {
    refused(&mut |kind, case| {
        let is_edge = match case.stream == three_rows() {
            true => [0, 47, 48, 49, 64].contains(&case.index.len()) && [0, 2, 3, 4, 5].contains(&case.number),
            false => case.index.len() == 48 && [0, 4].contains(&case.number),
        };
        if is_edge {
            emit(kind, case);
        }
    });
    let stream = three_rows();
    let (whole, length) = (index_of(&stream), stream.input.len() as u64);
    for n in [(1 << 32) + 1, (1 << 60) + 1, u64::MAX] {
        emit(KIND, call(Call::Extend, &stream, &whole, n));
        emit(KIND, call(Call::Row, &stream, &whole, n));
    }
    for offset in [length - 1, length, (1 << 32) + 10, u64::MAX] {
        let record = IndexRecord { offset, length: 5, table: 1 }.in_bytes();
        let index = [&whole[..16], &record, &whole[32..]].concat();
        [Call::Check, Call::Row].into_iter().for_each(|one| emit(KIND, call(one, &stream, &index, 1)));
        // What stands beside the record is not looked at.
        emit(KIND, call(Call::Row, &stream, &index, 0));
    }
    for table in [2, 65_536 + 1] {
        let record = IndexRecord { offset: 10, length: 5, table }.in_bytes();
        let index = [&whole[..16], &record, &whole[32..]].concat();
        [Call::Check, Call::Row].into_iter().for_each(|one| emit(KIND, call(one, &stream, &index, 1)));
    }
    let rooms = [
        (Slack::Less(1), Slack::More(0)),
        (Slack::More(15), Slack::Less(1)),
        (Slack::More(15), Slack::More(1)),
    ];
    for (records, payload) in rooms {
        emit(KIND, lend(call(Call::Row, &stream, &whole, 0), Room { records, payload }));
    }
    few_blob_limits(emit);
    // A row that is cut behind its table's tag, and formats that are too deep or have a child too many.
    let cut = IndexRecord { offset: 0, length: 4, table: 0 }.in_bytes();
    emit(KIND, call(Call::Row, &self::stream(&[0, 0]), &cut, 0));
    for plans in [chain(64, 19, 8), fan(17, 256, 2)] {
        let mut stream = Case { op: op::RUN, input: vec![0, 0, 7], ..Case::default() }.with_settings(usual());
        let block = lay_out(&table_of(&plans), &mut stream.records, &mut stream.names);
        stream.references.extend(inline(block));
        CALLS.into_iter().for_each(|one| emit(KIND, call(one, &stream, &cut, 0)));
    }
}
