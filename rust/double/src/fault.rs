//! Faults that a real library might have, each under the name of what it does wrong.

use std::hint::black_box;
use std::ptr::read_volatile;
use std::sync::atomic::{AtomicU64, Ordering::SeqCst};
use std::sync::OnceLock;
use std::thread::yield_now;

use plain::answer::number::NAME_NOT_UTF8;
use plain::format::validate_format;
use plain::report::{what, Report, REPORT_BYTES};
use plain::settings::{numbers_are_good, Settings, MOST};
use plain::wire_type::{STRING32, YSON32};

use crate::Call;

pub fn named() -> &'static str {
    static FAULT: OnceLock<String> = OnceLock::new();
    FAULT.get_or_init(|| std::env::var("DOUBLE_FAULT").unwrap_or_default())
}

/// Looks at the byte behind a slice, or at the one before it, where that is the fault.
pub fn looks_past(slice: &[u8]) {
    let beside = match named() {
        "reads_one_byte_past" => slice.as_ptr().wrapping_add(slice.len()),
        "reads_one_byte_before" => slice.as_ptr().wrapping_sub(1),
        _ => return,
    };
    // SAFETY: there is none. This is what a wrong library does, and what the harness has to find.
    black_box(unsafe { read_volatile(beside) });
}

/// The settings as a call takes them that mixes up the limits of string32 and yson32, where that is the fault.
pub fn taken(settings: Settings) -> Settings {
    let Settings { max_string32_bytes: string32, max_yson32_bytes: yson32, .. } = settings;
    let (max_string32_bytes, max_yson32_bytes) = match named() {
        "yson32_limit_is_not_tested" => (string32, yson32.min(MOST)),
        // What is out of bounds is refused all the same.
        _ if !settings.are_good() => return settings,
        "blob_limits_are_swapped" => (yson32, string32),
        "lower_blob_limit_is_for_both" => (string32.min(yson32), string32.min(yson32)),
        _ => return settings,
    };
    Settings { max_string32_bytes, max_yson32_bytes, ..settings }
}

/// Where a report has its refusal, and the first and the last of the values that it carries.
const NUMBER: usize = 8;
const TYPE: usize = 3 * 8;
const LIMIT: usize = 5 * 8;

/// Has 14 carry the limit of the type that it is not about, where that is the fault.
pub fn carries_another_limit(settings: &Settings, answer: &mut [u8]) {
    if named() != "too_large_carries_the_other_limit" || answer.len() < REPORT_BYTES || answer[NUMBER] != 14 {
        return;
    }
    let other = settings.blob_limit(STRING32 + YSON32 - answer[TYPE]);
    answer[LIMIT..LIMIT + 8].copy_from_slice(&other.to_le_bytes());
}

pub fn answer(call: Call, answer: &mut [u8]) -> u32 {
    let fault = named();
    looks_past(call.input);
    let mut report = report(fault, &call);
    if fault == "keeps_state_between_calls" {
        report.bytes = kept(report.bytes);
    }
    let returned = report.write_to(answer);
    match fault {
        "writes_past_the_report" if answer.len() > REPORT_BYTES => answer[REPORT_BYTES] = 0,
        "writes_into_a_short_answer" if (1..REPORT_BYTES).contains(&answer.len()) => answer[0] = 2,
        "short_answer_is_nothing" if answer.len() < REPORT_BYTES => return 0,
        "returns_0_from_a_refused_run" if call.is_run && answer.len() >= REPORT_BYTES => return 0,
        _ => {}
    }
    returned
}

/// A number as it comes back from a place that all calls share.
pub fn kept(number: u64) -> u64 {
    static KEPT: AtomicU64 = AtomicU64::new(0);
    KEPT.store(number, SeqCst);
    yield_now();
    KEPT.load(SeqCst)
}

/// Of the registry an index of one byte can't reach the rest.
const REACHED: usize = 255 * 16;

fn report(fault: &str, call: &Call) -> Report {
    let mut call = *call;
    if fault == "registry_searched_up_to_255" && call.tables.registry.len() > REACHED {
        call.tables.registry = &call.tables.registry[..REACHED];
    }
    let call = &call;
    let right = call.report();
    let refused = right.what == what::REFUSAL;
    let settings = call.settings;
    match fault {
        "blob_limit_excludes_equality" if settings.are_good() => {
            let report = Call { settings: with_lower_blob_limits(settings), ..*call }.report();
            with_own_limits(report, &settings)
        }
        "row_limit_one_more" if settings.are_good() && settings.max_row_bytes < MOST => {
            let higher = Settings { max_row_bytes: settings.max_row_bytes + 1, ..settings };
            let report = Call { settings: higher, ..*call }.report();
            with_own_limits(report, &settings)
        }
        "names_come_before_settings" if right.number == 1 => match validate_format(&call.tables) {
            Err(refusal) if refusal.number == NAME_NOT_UTF8 => Report::of_checked(&Err(refusal)),
            _ => right,
        },
        "end_before_the_format" if at_end(call) => Report { what: what::END, ..Report::default() },
        "place_counts_from_the_row" if refused && (11..=17).contains(&right.number) => {
            let start = if call.is_run { right.bytes } else { call.position };
            Report { place: right.place - start, ..right }
        }
        "row_limit_0_before_the_table" if right.number == 11 && settings.max_row_bytes == 0 => {
            Report { number: 13, place: right.place + 2, carried: [0; 3], ..right }
        }
        "counts_the_refused_row" if refused && call.is_run => Report { rows: right.rows + 1, ..right },
        "miscounts_after_100000_rows" if right.rows > 100_000 => Report { rows: right.rows + 1, ..right },
        "int256_is_no_payload" if right.payload >= 32 => Report { payload: right.payload - 32, ..right },
        "position_is_cut_to_32_bits" if !call.is_run => {
            Call { position: call.position % (1 << 32), ..*call }.report()
        }
        _ => right,
    }
}

/// Both limits of blobs one less, so that equality is refused.
pub fn with_lower_blob_limits(settings: Settings) -> Settings {
    Settings {
        max_string32_bytes: settings.max_string32_bytes.saturating_sub(1),
        max_yson32_bytes: settings.max_yson32_bytes.saturating_sub(1),
        ..settings
    }
}

/// A report under other limits, which carries those that were given.
pub fn with_own_limits(mut report: Report, settings: &Settings) -> Report {
    match report.number {
        13 => report.carried[0] = settings.max_row_bytes,
        14 => report.carried[2] = settings.blob_limit(report.carried[0] as u8),
        _ => {}
    }
    report
}

fn at_end(call: &Call) -> bool {
    numbers_are_good(&call.settings, &call.tables, call.input, call.position)
        && call.position == call.input.len() as u64
}
