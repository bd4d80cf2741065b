//! index-diff against its test double: a right library passes, and each planted fault is found and made small. Runs
//! with `--features double,index`.

#![cfg(all(feature = "double", feature = "index"))]

use std::process::Command;

fn with_words(fault: &str, words: &[&str]) -> (Option<i32>, String) {
    let output = Command::new(env!("CARGO_BIN_EXE_index-diff"))
        .args(words)
        .env("DOUBLE_FAULT", fault)
        .output()
        .expect("index-diff runs");
    (output.status.code(), String::from_utf8_lossy(&output.stdout).into_owned())
}

/// The exit code and what was printed.
fn run(fault: &str, count: &str) -> (Option<i32>, String) {
    with_words(fault, &["--count", count, "--seed", "7"])
}

#[test]
fn a_right_library_passes_and_all_is_met() {
    let (code, text) = run("", "150000");
    assert_eq!(code, Some(0), "{text}");
    assert!(text.trim_end().ends_with("0 differences"), "{text}");
}

/// Of too few cases all answers may be right, and still not all was met.
#[test]
fn what_is_never_met_is_told() {
    let output = Command::new(env!("CARGO_BIN_EXE_index-diff"))
        .args(["--count", "1", "--only", "cases"])
        .output()
        .expect("index-diff runs");
    assert_eq!(output.status.code(), Some(2));
    let text = String::from_utf8_lossy(&output.stderr);
    assert!(text.contains("never met: build answer"), "{text}");
}

/// The faults of a call, each found in that call and made small.
fn each_is_found(call: &str, faults: &[&str]) {
    for fault in faults {
        let (code, text) = run(fault, "100000");
        assert_eq!(code, Some(1), "{fault}: {text}");
        let (_, rest) = text.split_once("smallest case found: ").expect(&text);
        let bytes: usize = rest.split(' ').next().unwrap().parse().expect(&text);
        assert!(bytes <= 200, "{fault}: {text}");
        assert!(rest.contains(&format!("\n{call}\n  library: ")), "{fault}: {text}");
    }
}

#[test]
fn building() {
    each_is_found(
        "build",
        &[
            "index_room_before_the_run",
            "writes_the_rows_of_a_refused_run",
            "writes_records_while_there_is_room",
            "writes_past_the_index",
            "part_of_an_index_record_is_room",
            "the_last_row_is_left_out",
        ],
    );
}

/// A name that is no text: every call is refused, and building comes first.
#[test]
fn names() {
    each_is_found("build", &["rows_are_read_whatever_the_names"]);
}

/// A limit for string32 and another for yson32: every call takes both, and building comes first.
#[test]
fn blob_limits() {
    each_is_found(
        "build",
        &[
            "blob_limits_are_swapped",
            "lower_blob_limit_is_for_both",
            "too_large_carries_the_other_limit",
            "yson32_limit_is_not_tested",
        ],
    );
}

#[test]
fn checking() {
    each_is_found(
        "check",
        &[
            "a_ragged_tail_is_passed",
            "records_behind_are_passed",
            "offsets_are_compared_in_32_bits",
            "tables_are_not_compared",
            "a_mismatch_has_no_rows",
            "a_mismatch_has_a_place",
        ],
    );
}

#[test]
fn extending() {
    each_is_found(
        "extend",
        &[
            "old_count_is_cut_to_32_bits",
            "old_records_are_not_checked",
            "more_old_records_than_rows_are_passed",
            "index_room_before_the_old_records",
            "old_records_are_checked_before_the_run",
            "answers_the_rows_that_were_added",
            "an_old_count_past_the_slice_is_a_mismatch",
        ],
    );
}

#[test]
fn decoding_by_an_index() {
    each_is_found(
        "row n",
        &[
            "row_number_is_cut_to_32_bits",
            "row_number_loses_its_high_bits",
            "part_of_an_index_record_is_a_row",
            "offset_is_cut_to_32_bits",
            "an_offset_at_the_end_is_an_end",
            "a_mismatch_comes_before_the_row",
            "room_comes_before_a_mismatch",
            "table_is_cut_to_16_bits",
            "lengths_are_not_compared",
            "the_whole_index_is_looked_at",
            "indexed_room_has_no_place",
            "indexed_row_writes_before_payload_room",
        ],
    );
}

/// All calls that write have this one.
#[test]
fn a_short_answer_slice() {
    let (code, text) = run("indexes_with_a_short_answer", "100000");
    assert_eq!(code, Some(1), "{text}");
    assert!(text.contains("  library: returned 1, "), "{text}");
}

/// Both are stopped by a page that can't be read, and told as differences.
#[test]
fn a_byte_beside_a_slice() {
    for fault in ["reads_one_byte_past", "reads_one_byte_before"] {
        let (code, text) = run(fault, "1000");
        assert_eq!(code, Some(1), "{fault}: {text}");
        assert!(text.contains("DIFFERENCE: a call reads or writes outside of the slices"), "{fault}: {text}");
        assert!(text.contains("index of "), "{fault}: {text}");
    }
}

#[test]
fn two_threads() {
    let (code, text) = with_words("keeps_state_between_calls", &["--only", "threads"]);
    assert_eq!(code, Some(1), "{text}");
    assert!(text.contains("DIFFERENCE: two threads at once: "), "{text}");
}

/// What shows only in slices of 4,294,967,296 bytes: that their last byte does not count, and that one which is only
/// read is refused.
#[test]
fn huge_slices() {
    for (fault, told) in
        [("index_room_counts_every_byte", "extend from"), ("a_long_index_is_looked_at", "check")]
    {
        let (code, text) = with_words(fault, &["--only", "huge"]);
        assert_eq!(code, Some(1), "{fault}: {text}");
        assert!(
            text.contains("DIFFERENCE: index of 4294967296 bytes") && text.contains(told),
            "{fault}: {text}"
        );
    }
}

/// Where there is no room for such slices the run has not done what it should have.
#[test]
fn slices_that_there_is_no_room_for() {
    let limited = format!("ulimit -v 4000000; exec {} --only huge", env!("CARGO_BIN_EXE_index-diff"));
    let output = Command::new("sh").args(["-c", &limited]).output().expect("a shell runs");
    assert_eq!(output.status.code(), Some(2));
    assert!(String::from_utf8_lossy(&output.stderr).contains("huge could not be tried"));
}
