//! row-diff against its test double: a right library passes, and each planted fault is found and made
//! small. Runs with `--features double`.

#![cfg(feature = "double")]

use std::process::Command;

/// The exit code and what was printed.
fn run(fault: &str, count: &str) -> (Option<i32>, String) {
    with_words(fault, &["--count", count, "--seed", "7"])
}

fn with_words(fault: &str, words: &[&str]) -> (Option<i32>, String) {
    let output = Command::new(env!("CARGO_BIN_EXE_row-diff"))
        .args(words)
        .env("DOUBLE_FAULT", fault)
        .output()
        .expect("row-diff runs");
    (output.status.code(), String::from_utf8_lossy(&output.stdout).into_owned())
}

#[test]
fn a_right_library_passes_and_all_is_met() {
    let (code, text) = run("", "800000");
    assert_eq!(code, Some(0), "{text}");
    assert!(text.trim_end().ends_with("0 differences"), "{text}");
}

/// The fault, the most bytes that its smallest case may have, and what its report says.
fn found(fault: &str, most_bytes: usize, says: &[&str]) {
    let (code, text) = run(fault, "1000000");
    assert_eq!(code, Some(1), "{fault}: {text}");
    let (_, rest) = text.split_once("smallest case found: ").expect(&text);
    let bytes: usize = rest.split(' ').next().unwrap().parse().expect(&text);
    assert!(bytes <= most_bytes, "{fault}: {text}");
    for part in says {
        assert!(text.contains(part), "{fault}, wanted {part:?}: {text}");
    }
}

/// One table of one column, its reference, and the name of one letter.
const ONE_COLUMN: usize = 2 * 16 + 16 + 1;

#[test]
fn a_format_that_is_none() {
    found("passes_every_format", 0, &["THE CHECK OF THE FORMAT IS ANSWERED OTHERWISE"]);
}

/// Names that are no text, in every call that reads by a format.
#[test]
fn names_that_are_not_looked_at() {
    found("rows_are_read_whatever_the_names", 64, &["plain:    returned 33", "original: outside"]);
    found("names_come_before_settings", 64, &["library:  returned 33", "plain:    returned 1:"]);
}

#[test]
fn a_name_in_capitals() {
    let (code, text) = run("reads_names_in_capitals", "1000000");
    assert_eq!(code, Some(1), "{text}");
    assert!(text.contains("DIFFERENCE: skiff_parse takes "), "{text}");
}

#[test]
fn a_blob_as_long_as_its_limit() {
    found("blob_limit_excludes_equality", ONE_COLUMN + 40, &["library:  returned 14", "original: number 12"]);
}

/// A limit for string32 and another for yson32. What is found comes down to a blob of one type, about which the
/// original can be asked, or to no blob at all.
#[test]
fn limits_of_blobs_that_are_mixed_up() {
    found("blob_limits_are_swapped", ONE_COLUMN + 40, &["string32 limit ", "original: number "]);
    found("lower_blob_limit_is_for_both", ONE_COLUMN + 40, &["library:  returned 14", "original: number "]);
    found(
        "too_large_carries_the_other_limit",
        ONE_COLUMN + 40,
        &["plain:    returned 14", "original: number 14"],
    );
    found("yson32_limit_is_not_tested", 0, &["yson32 limit 4294967296", "plain:    returned 1:"]);
}

#[test]
fn a_row_that_costs_one_more() {
    found("row_limit_one_more", ONE_COLUMN + 40, &["plain:    returned 13", "original: number 13"]);
}

#[test]
fn an_end_before_a_bad_format() {
    found("end_before_the_format", 16, &["library:  returned 0: what 1"]);
}

#[test]
fn places_from_the_row() {
    found("place_counts_from_the_row", ONE_COLUMN, &["plain:    returned 1"]);
}

#[test]
fn a_charge_before_the_table() {
    found("row_limit_0_before_the_table", 34, &["row limit 0", "plain:    returned 11"]);
}

#[test]
fn a_refused_row_that_counts() {
    found("counts_the_refused_row", 0, &["rows 1", "plain:    returned 6"]);
}

#[test]
fn payload_of_int256() {
    found("int256_is_no_payload", ONE_COLUMN + 38, &["payload 32", "original: number 0"]);
}

#[test]
fn a_position_that_is_cut() {
    found("position_is_cut_to_32_bits", 50, &["plain:    returned 1: what 2, refusal 1"]);
}

#[test]
fn answer_slices() {
    found("writes_past_the_report", 50, &["plain:    returned"]);
    found("writes_into_a_short_answer", 50, &["answer slice of 87"]);
    found("short_answer_is_nothing", 50, &["library:  returned 0, answer slice"]);
    found("returns_0_from_a_refused_run", 50, &["library:  returned 0: what 2"]);
}

#[test]
fn room_to_decode_into() {
    // A table without columns: its record needs sixteen bytes.
    found("part_of_a_record_is_room", 34, &["record slice: 1 bytes less", "plain:    returned 19"]);
    found("payload_room_comes_first", ONE_COLUMN + 48, &["library:  returned 20", "plain:    returned 19"]);
    found("room_has_no_place", ONE_COLUMN + 48, &["plain:    returned"]);
    found("room_carries_what_is_missing", ONE_COLUMN + 48, &["plain:    returned 19"]);
}

#[test]
fn room_past_the_bytes_that_count() {
    let (code, text) = run("counts_every_lent_byte", "800000");
    assert_eq!(code, Some(1), "{text}");
    assert!(text.contains("DIFFERENCE: 268435456 records into 4294967296 bytes: decode"), "{text}");
}

#[test]
fn what_decoding_leaves_in_the_slices() {
    found("fills_the_rest_of_the_records", 34, &["decode the row", "bytes more than enough"]);
    found("fills_the_rest_of_the_payload", 34, &["decode the row", "bytes more than enough"]);
    found("writes_records_before_payload_room", ONE_COLUMN + 48, &["plain:    returned 20"]);
    found("writes_before_a_cut", ONE_COLUMN + 48, &["plain:    returned 12"]);
    found("decodes_with_a_short_answer", ONE_COLUMN + 48, &["library:  returned 1, answer slice"]);
}

/// Both are stopped by a page that can't be read, and told as differences.
#[test]
fn a_byte_beside_a_slice() {
    for fault in ["reads_one_byte_past", "reads_one_byte_before"] {
        let (code, text) = run(fault, "1000");
        assert_eq!(code, Some(1), "{fault}: {text}");
        assert!(text.contains("DIFFERENCE: a call reads or writes outside of the slices"), "{fault}: {text}");
        assert!(text.contains("the row at 0") || text.contains("run over"), "{fault}: {text}");
    }
}

/// What no case is long enough for, and what a single thread never shows.
#[test]
fn many_rows_and_two_threads() {
    let (code, text) = with_words("miscounts_after_100000_rows", &["--only", "rows"]);
    assert_eq!(code, Some(1), "{text}");
    let told = "DIFFERENCE: a run over 3000000 rows of the client's schema, which end well";
    assert!(text.contains(told) && text.contains("rows 3000001"), "{text}");

    let (code, text) = with_words("keeps_state_between_calls", &["--only", "threads"]);
    assert_eq!(code, Some(1), "{text}");
    assert!(text.contains("DIFFERENCE: two threads at once: "), "{text}");
}

/// A search that one byte counts for. All but the registry goes; that has to stay too long for it.
#[test]
fn a_registry_that_is_searched_in_part() {
    let (code, text) = run("registry_searched_up_to_255", "1000");
    assert_eq!(code, Some(1), "{text}");
    assert!(text.contains("DIFFERENCE in a case of ") && text.contains("registry: 2"), "{text}");
}

/// Where there is no room for slices of 4,294,967,296 bytes the run has not done what it should have.
#[test]
fn slices_that_there_is_no_room_for() {
    let limited = format!("ulimit -v 4000000; exec {} --only huge", env!("CARGO_BIN_EXE_row-diff"));
    let output = Command::new("sh").args(["-c", &limited]).output().expect("a shell runs");
    assert_eq!(output.status.code(), Some(2));
    assert!(String::from_utf8_lossy(&output.stderr).contains("huge could not be tried"));
}

#[test]
fn a_value_without_its_sign() {
    found("value_loses_its_sign", ONE_COLUMN + 40, &[VALUE]);
}

const VALUE: &str = "THE VALUE OF A RECORD, OR WHAT THE ROW VIEW TELLS OF IT, IS ANSWERED OTHERWISE";

/// A tuple whose first field has something below it, and a tag that does not fit in a byte.
#[test]
fn a_row_that_is_seen_otherwise() {
    found("field_counts_a_grandchild", ONE_COLUMN + 100, &[VALUE, "decode the row"]);
    found("after_is_the_next_record", ONE_COLUMN + 10, &[VALUE, "decode the row"]);
    let (code, text) = run("tag_is_cut_to_8_bits", "1000");
    assert_eq!(code, Some(1), "{text}");
    assert!(text.contains(VALUE), "{text}");
}

#[test]
fn values_that_are_decoded() {
    found("boolean_is_its_byte", ONE_COLUMN + 48, &["decode the row", "original: number 0"]);
    found("repeated_counts_its_end", ONE_COLUMN + 48, &["decode the row", "original: number 0"]);
    found("double_is_made_quiet", ONE_COLUMN + 10, &["decode the row", "original: number 0"]);
}
