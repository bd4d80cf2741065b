//! The index calls, and what can be wrong with them.

use plain::answer::number::{
    INDEX_MISMATCH, NO_INDEX_ROOM, NO_NODE_ROOM, NO_PAYLOAD_ROOM, NO_SUCH_ROW, SETTING,
};
use plain::indexing::{accepted, build, check, decode_row, extend, index_record, Plainly};
use plain::reading::Skipped;
use plain::report::{what, Report, REPORT_BYTES};
use plain::settings::MOST;
use plain::tables::{record_count, RECORD_BYTES};

use crate::fault::{kept, looks_past, named};
use crate::Call;

fn plainly<'a>(call: &Call<'a>) -> Plainly<'a> {
    Plainly { settings: call.settings, tables: call.tables, input: call.input }
}

/// The answer that a run has with another refusal, or with none.
fn instead(report: &Report, number: u64) -> Report {
    let what = if number == 0 { what::END } else { what::REFUSAL };
    let Report { rows, bytes, .. } = *report;
    Report { what, number, rows, bytes, ..Report::default() }
}

fn finish(report: Report, answer: &mut [u8]) -> u32 {
    let mut report = report;
    match named() {
        "keeps_state_between_calls" => report.bytes = kept(report.bytes),
        "a_mismatch_has_no_rows" if report.number == INDEX_MISMATCH => (report.rows, report.bytes) = (0, 0),
        "a_mismatch_has_a_place" if report.number == INDEX_MISMATCH => report.place = 1,
        _ => {}
    }
    report.write_to(answer)
}

/// Where a short answer slice leaves all others as they are.
fn is_too_short(answer: &[u8]) -> bool {
    answer.len() < REPORT_BYTES && named() != "indexes_with_a_short_answer"
}

pub fn build_answer(call: Call, index: &mut [u8], answer: &mut [u8]) -> u32 {
    if is_too_short(answer) {
        return 1;
    }
    looks_past(index);
    let stream = plainly(&call);
    let mut report = Report::of_run(&build(&stream, index));
    let fault = named();
    // What is not asked for a fault need not be read twice.
    let whole = if fault.is_empty() { Vec::new() } else { accepted(&stream).index() };
    let need = whole.len();
    match fault {
        "index_room_before_the_run" if report.number > 10 && report.number < 18 && need > index.len() => {
            report = instead(&report, NO_INDEX_ROOM);
        }
        "writes_the_rows_of_a_refused_run" if report.number > 10 && need <= index.len() => {
            index[..need].copy_from_slice(&whole);
        }
        "writes_records_while_there_is_room" if report.number == NO_INDEX_ROOM => {
            let some = index.len() / RECORD_BYTES * RECORD_BYTES;
            index[..some].copy_from_slice(&whole[..some]);
        }
        "writes_past_the_index" if report.number == 0 => {
            if let Some(byte) = index.get_mut(need) {
                *byte = 0;
            }
        }
        "part_of_an_index_record_is_room" if report.number == NO_INDEX_ROOM && need - index.len() < 16 => {
            let all = index.len();
            index.copy_from_slice(&whole[..all]);
            report = instead(&report, 0);
        }
        "the_last_row_is_left_out" if report.number == 0 && need > 0 => {
            index[need - 16..need].fill(0);
        }
        _ => {}
    }
    finish(report, answer)
}

pub fn check_answer(call: Call, index: &[u8], answer: &mut [u8]) -> u32 {
    looks_past(index);
    let stream = plainly(&call);
    let mut report = Report::of_run(&check(&stream, index));
    let whole = || accepted(&stream).index();
    match named() {
        "a_ragged_tail_is_passed"
            if report.number == INDEX_MISMATCH && index[..index.len() / 16 * 16] == whole() =>
        {
            report = instead(&report, 0);
        }
        "records_behind_are_passed" if report.number == INDEX_MISMATCH && index.starts_with(&whole()) => {
            report = instead(&report, 0);
        }
        "offsets_are_compared_in_32_bits" if report.number == INDEX_MISMATCH => {
            let mut cut = index.to_vec();
            cut.chunks_exact_mut(16).for_each(|record| record[4..8].fill(0));
            if cut == whole() {
                report = instead(&report, 0);
            }
        }
        "tables_are_not_compared" if report.number == INDEX_MISMATCH && index.len() == whole().len() => {
            let own = whole();
            if index.chunks_exact(16).zip(own.chunks_exact(16)).all(|(given, own)| given[..12] == own[..12]) {
                report = instead(&report, 0);
            }
        }
        "a_long_index_is_looked_at" if index.len() as u64 > MOST => {
            report = Report::of_run(&check(&stream, &index[..MOST as usize]));
        }
        _ => {}
    }
    finish(report, answer)
}

pub fn extend_answer(call: Call, old: u64, index: &mut [u8], answer: &mut [u8]) -> u32 {
    if is_too_short(answer) {
        return 1;
    }
    looks_past(index);
    let stream = plainly(&call);
    let fault = named();
    let old = if fault == "old_count_is_cut_to_32_bits" { old % (1 << 32) } else { old };
    let mut report = Report::of_run(&extend(&stream, old, index));
    match fault {
        "old_records_are_not_checked" if report.number == INDEX_MISMATCH => {
            let own = accepted(&stream);
            if old <= own.rows.len() as u64 && own.rows.len() <= index.len() / 16 {
                let from = old as usize * 16;
                index[from..own.rows.len() * 16].copy_from_slice(&own.index()[from..]);
                report = instead(&report, 0);
            }
        }
        "more_old_records_than_rows_are_passed" if report.number == INDEX_MISMATCH => {
            let whole = accepted(&stream).index();
            if old > record_count(&whole) && index.starts_with(&whole) {
                report = instead(&report, 0);
            }
        }
        "index_room_before_the_old_records"
            if report.number == INDEX_MISMATCH && accepted(&stream).rows.len() > index.len() / 16 =>
        {
            report = instead(&report, NO_INDEX_ROOM);
        }
        "old_records_are_checked_before_the_run"
            if (11..=17).contains(&report.number) && old > accepted(&stream).rows.len() as u64 =>
        {
            report = instead(&report, INDEX_MISMATCH);
        }
        "answers_the_rows_that_were_added" if report.number == 0 => report.rows -= old,
        "an_old_count_past_the_slice_is_a_mismatch" if old > index.len() as u64 / 16 => {
            report = Report { what: what::REFUSAL, number: INDEX_MISMATCH, ..Report::default() };
        }
        "index_room_counts_every_byte" if report.number == SETTING && old == index.len() as u64 / 16 => {
            report = instead(&Report::of_run(&build(&stream, &mut [])), INDEX_MISMATCH);
        }
        _ => {}
    }
    finish(report, answer)
}

/// The slices that row n is lent.
pub struct Lent<'a> {
    pub records: &'a mut [u8],
    pub payload: &'a mut [u8],
}

pub fn row_answer(call: Call, index: &[u8], row: u64, lent: Lent, answer: &mut [u8]) -> u32 {
    if is_too_short(answer) {
        return 1;
    }
    looks_past(index);
    let fault = named();
    let Lent { records, payload } = lent;
    let stream = plainly(&call);
    let row = match fault {
        "row_number_is_cut_to_32_bits" => row % (1 << 32),
        "row_number_loses_its_high_bits" => row % (1 << 60),
        _ => row,
    };
    // One record, whose fields are what such a fault makes of them.
    let is_there = !fault.is_empty() && row < record_count(index);
    let seen = |change: fn(&mut [u8])| {
        let mut record = index[row as usize * 16..][..16].to_vec();
        change(&mut record);
        record
    };
    let seen = match fault {
        "offset_is_cut_to_32_bits" if is_there => Some(seen(|record| record[4..8].fill(0))),
        "table_is_cut_to_16_bits" if is_there => Some(seen(|record| record[14..16].fill(0))),
        _ => None,
    };
    let done = match &seen {
        Some(record) => decode_row(&stream, record, 0, records, payload),
        None => decode_row(&stream, index, row, records, payload),
    };
    let mut report = Report::of_skip(&done.map(Skipped::Row));
    let refused = |number: u64| Report { what: what::REFUSAL, number, ..Report::default() };
    match fault {
        "part_of_an_index_record_is_a_row"
            if report.number == NO_SUCH_ROW && row == record_count(index) && index.len() % 16 > 0 =>
        {
            report = refused(INDEX_MISMATCH);
        }
        "an_offset_at_the_end_is_an_end"
            if report.number == INDEX_MISMATCH
                && index_record(index, row).offset == call.input.len() as u64 =>
        {
            report = Report { what: what::END, ..Report::default() };
        }
        "a_mismatch_comes_before_the_row" if (11..=17).contains(&report.number) => {
            report = refused(INDEX_MISMATCH);
        }
        "room_comes_before_a_mismatch" if report.number == INDEX_MISMATCH && records.is_empty() => {
            let offset = index_record(index, row).offset;
            if offset < call.input.len() as u64 {
                let need = Call { position: offset, is_run: false, ..call }.report().records;
                report = Report { place: offset, carried: [need, 0, 0], ..refused(NO_NODE_ROOM) };
            }
        }
        "lengths_are_not_compared" if report.number == INDEX_MISMATCH => {
            let own = index_record(index, row);
            if own.offset < call.input.len() as u64 {
                let found = Call { position: own.offset, is_run: false, ..call }.report();
                report = if found.table == own.table { found } else { report };
            }
        }
        "the_whole_index_is_looked_at" if report.number == 0 && check(&stream, index).refusal.is_some() => {
            report = refused(INDEX_MISMATCH);
        }
        "indexed_room_has_no_place" if [NO_NODE_ROOM, NO_PAYLOAD_ROOM].contains(&report.number) => {
            report.place = 0;
        }
        "indexed_row_writes_before_payload_room" if report.number == NO_PAYLOAD_ROOM => records[0] = 17,
        _ => {}
    }
    finish(report, answer)
}
