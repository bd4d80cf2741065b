//! The decoding call, and what can be wrong with it.

use plain::decoding::decode;
use plain::report::{what, Report, REPORT_BYTES};

use crate::fault::named;
use crate::Call;

/// The slices that are written.
pub struct Lent<'a> {
    pub records: &'a mut [u8],
    pub payload: &'a mut [u8],
    pub answer: &'a mut [u8],
}

fn put(bytes: &mut [u8], at: usize, byte: u8) {
    if let Some(place) = bytes.get_mut(at) {
        *place = byte;
    }
}

/// The first record of a kind, by where it begins.
fn first_of(kind: u8, records: &[u8], count: u64) -> Option<usize> {
    (0..count as usize).map(|index| index * 16).find(|at| records[*at] == kind)
}

/// What a row is told that has room for its records, if it lacks room for its payload.
fn without_payload_room(call: &Call, payload: &[u8]) -> Option<Report> {
    let Report { payload: need, .. } = call.report();
    let refusal = Report { what: what::REFUSAL, number: 20, place: call.position, ..Report::default() };
    (need > payload.len() as u64).then_some(Report { carried: [need, 0, 0], ..refusal })
}

pub fn answer(call: Call, lent: Lent) -> u32 {
    let fault = named();
    let Lent { records, payload, answer } = lent;
    if answer.len() < REPORT_BYTES && fault != "decodes_with_a_short_answer" {
        return 1;
    }
    let Call { settings, tables, input, position, .. } = call;
    let rounds_up = fault == "part_of_a_record_is_room" && records.len() % 16 == 15;
    let done = if rounds_up {
        let mut longer = [&*records, &[0]].concat();
        let done = decode(&settings, &tables, input, position, &mut longer, payload);
        records.copy_from_slice(&longer[..records.len()]);
        done
    } else {
        decode(&settings, &tables, input, position, records, payload)
    };

    let mut report = Report::of_skip(&done);
    let is_row = report.what == what::ROW;
    match fault {
        "payload_room_comes_first" if report.number == 19 => {
            report = without_payload_room(&call, payload).unwrap_or(report);
        }
        "counts_every_lent_byte" if report.number == 19 && report.carried[0] <= records.len() as u64 / 16 => {
            report = without_payload_room(&call, payload).unwrap_or(report);
        }
        "room_has_no_place" if [19, 20].contains(&report.number) => report.place = 0,
        "room_carries_what_is_missing" if report.number == 19 => {
            report.carried[0] -= records.len() as u64 / 16;
        }
        "fills_the_rest_of_the_records" if is_row => put(records, report.records as usize * 16, 0),
        "fills_the_rest_of_the_payload" if is_row => put(payload, report.payload as usize, 0),
        "writes_records_before_payload_room" if report.number == 20 => put(records, 0, 17),
        "writes_before_a_cut" if report.number == 12 => put(payload, 0, 0),
        "boolean_is_its_byte" if is_row => {
            if let Some(at) = first_of(1, records, report.records) {
                records[at + 8] *= 2;
            }
        }
        "repeated_counts_its_end" if is_row => {
            if let Some(at) = first_of(16, records, report.records) {
                records[at + 4] += 1;
            }
        }
        "double_is_made_quiet" if is_row => {
            // A signalling NaN that was computed with.
            if let Some(at) = first_of(12, records, report.records) {
                let bits = records[at + 8..at + 16].try_into().expect("eight bytes");
                if f64::from_le_bytes(bits).is_nan() {
                    records[at + 14] |= 8;
                }
            }
        }
        _ => {}
    }
    report.write_to(answer)
}
