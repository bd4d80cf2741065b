//! The writing calls, and what can be wrong with them.

use plain::answer::Refusal;
use plain::encoding::{encode, written, Given};
use plain::report::{what, Report, REPORT_BYTES};
use plain::settings::{Settings, MOST};
use plain::value_table::{check, is_formed};

use crate::fault::{kept, looks_past, named, with_lower_blob_limits, with_own_limits};

/// A record of a table, by where it begins, whose kind is this.
fn last_is(kind: u8, records: &[u8]) -> bool {
    records.len() >= 16 && records[records.len() - 16] == kind
}

fn refused(refusal: Refusal) -> Report {
    Report::of_encoded(&Err(refusal))
}

/// The limits that an encoder with a fault asks for blobs; those that are out of bounds stay so.
fn asked_by_encoder(fault: &str, settings: Settings) -> Settings {
    match fault {
        _ if !settings.are_good() => settings,
        "encoder_blob_limit_excludes_equality" => with_lower_blob_limits(settings),
        "encoder_asks_string32_limit_for_yson32" => {
            Settings { max_yson32_bytes: settings.max_string32_bytes, ..settings }
        }
        _ => settings,
    }
}

pub fn encode_answer(given: Given, output: &mut [u8], position: u64, answer: &mut [u8]) -> u32 {
    let fault = named();
    if answer.len() < REPORT_BYTES && fault != "encodes_with_a_short_answer" {
        return 1;
    }
    looks_past(given.value_records);
    // An output may be too long to be kept; faults are planted in short ones.
    let before = if fault.is_empty() { Vec::new() } else { output.to_vec() };
    let asked = Given { settings: asked_by_encoder(fault, given.settings), ..given };
    let mut report = Report::of_encoded(&encode(&asked, output, position));
    if fault == "encoder_blob_limit_excludes_equality" {
        report = with_own_limits(report, &given.settings);
    }
    let is_row = report.what == what::ROW;
    let at = position as usize;
    match fault {
        "writes_table_tag_1" if is_row => output[at] = 1,
        "boolean_is_its_opposite" if is_row => {
            let booleans = written(&given).expect("it was written").booleans;
            if let Some(offset) = booleans.first() {
                output[at + offset] ^= 1;
            }
        }
        "leaves_out_an_end_tag" if is_row && last_is(16, given.value_records) => {
            report.bytes -= 1;
            let end = at + report.bytes as usize;
            output[end] = before[end];
        }
        "writes_a_constant_row" if is_row => output[at + 2..at + report.bytes as usize].fill(0),
        "writes_past_the_row" if is_row => {
            if let Some(byte) = output.get_mut(at + report.bytes as usize) {
                *byte = 0;
            }
        }
        "writes_a_tag_before_it_is_judged" if report.number == 17 => {
            if let Some(byte) = output.get_mut(at) {
                *byte = 0;
            }
        }
        "output_room_excludes_equality" if is_row && at + report.bytes as usize == output.len() => {
            output.copy_from_slice(&before);
            report = refused(Refusal::at(21, position, [report.bytes, 0, 0]));
        }
        "room_comes_before_the_blob_limit" if report.number == 14 => {
            let settings = given.settings.with_max_blob_bytes(MOST);
            let done = encode(&Given { settings, ..given }, &mut before.clone(), position);
            if let Err(refusal @ Refusal { number: 21, .. }) = done {
                report = refused(refusal);
            }
        }
        "mismatch_comes_before_the_table" if report.number == 18 => {
            let kind = given.value_records.first().copied().unwrap_or(17);
            if kind < 17 {
                report = refused(Refusal::at(15, 0, [19, u64::from(kind), 0]));
            }
        }
        "tag_is_placed_at_its_parent" if report.number == 17 => report.place -= 1,
        "keeps_state_between_calls" => report.bytes = kept(report.bytes),
        _ => {}
    }
    report.write_to(answer)
}

pub fn check_answer(records: &[u8], payload: &[u8], answer: &mut [u8]) -> u32 {
    let fault = named();
    looks_past(records);
    let mut checked = check(records, payload);
    match fault {
        "accepts_a_second_tree" if checked.is_err() && records.len() > 16 && records.len() % 16 == 0 => {
            let fewer = &records[..records.len() - 16];
            if is_formed(fewer, payload) {
                checked = Ok(());
            }
        }
        "accepts_a_start_off_by_one" if checked.is_err() && records.len() % 16 == 0 => {
            let shifts = (0..records.len() / 16).any(|index| {
                let mut shifted = records.to_vec();
                shifted[index * 16 + 8] = shifted[index * 16 + 8].wrapping_sub(1);
                [6, 7, 13, 14].contains(&shifted[index * 16]) && is_formed(&shifted, payload)
            });
            if shifts {
                checked = Ok(());
            }
        }
        _ => {}
    }
    Report::of_checked(&checked).write_to(answer)
}
