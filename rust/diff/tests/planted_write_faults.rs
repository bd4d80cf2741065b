//! write-diff against its test double: a right library passes, and each planted fault is found and made
//! small. Runs with `--features double,encode`.

#![cfg(all(feature = "double", feature = "encode"))]

use std::process::Command;

/// The exit code and what was printed.
fn run(fault: &str, count: &str) -> (Option<i32>, String) {
    let output = Command::new(env!("CARGO_BIN_EXE_write-diff"))
        .args(["--count", count, "--seed", "7"])
        .env("DOUBLE_FAULT", fault)
        .output()
        .expect("write-diff runs");
    (output.status.code(), String::from_utf8_lossy(&output.stdout).into_owned())
}

#[test]
fn a_right_library_passes_and_all_is_met() {
    let (code, text) = run("", "60000");
    assert_eq!(code, Some(0), "{text}");
    assert!(text.trim_end().ends_with("0 differences"), "{text}");
}

/// It is stopped by a page that can't be read, and told as a difference.
#[test]
fn a_byte_beside_a_slice() {
    for fault in ["reads_one_byte_past", "reads_one_byte_before"] {
        let (code, text) = run(fault, "1000");
        assert_eq!(code, Some(1), "{fault}: {text}");
        assert!(text.contains("DIFFERENCE: a call reads or writes outside of the slices"), "{fault}: {text}");
    }
}

/// Where there is no room for slices of 4,294,967,296 bytes the run has not done what it should have.
#[test]
fn slices_that_there_is_no_room_for() {
    let limited = format!("ulimit -v 4000000; exec {} --count 60000", env!("CARGO_BIN_EXE_write-diff"));
    let output = Command::new("sh").args(["-c", &limited]).output().expect("a shell runs");
    assert_eq!(output.status.code(), Some(2));
    assert!(String::from_utf8_lossy(&output.stderr).contains("could not be tried"));
}

#[test]
fn two_threads() {
    let (code, text) = run("keeps_state_between_calls", "60000");
    assert_eq!(code, Some(1), "{text}");
    assert!(text.contains("DIFFERENCE: two threads at once: encode"), "{text}");
}

#[test]
fn each_fault_is_found() {
    for fault in [
        "writes_table_tag_1",
        "boolean_is_its_opposite",
        "leaves_out_an_end_tag",
        "writes_a_constant_row",
        "writes_past_the_row",
        "writes_a_tag_before_it_is_judged",
        "encoder_blob_limit_excludes_equality",
        "encoder_asks_string32_limit_for_yson32",
        "blob_limits_are_swapped",
        "lower_blob_limit_is_for_both",
        "too_large_carries_the_other_limit",
        "yson32_limit_is_not_tested",
        "output_room_excludes_equality",
        "room_comes_before_the_blob_limit",
        "mismatch_comes_before_the_table",
        "tag_is_placed_at_its_parent",
        "encodes_with_a_short_answer",
        "accepts_a_second_tree",
        "accepts_a_start_off_by_one",
        "passes_a_column_without_a_name",
        "encoder_does_not_look_at_names",
        "encoder_looks_at_names_after_its_rules",
        "value_loses_its_sign",
    ] {
        let (code, text) = run(fault, "60000");
        assert_eq!(code, Some(1), "{fault}: {text}");
        let (_, rest) = text.split_once("smallest case found: ").expect(&text);
        let bytes: usize = rest.split(' ').next().unwrap().parse().expect(&text);
        assert!(bytes <= 600, "{fault}: {text}");
        let calls =
            ["\nencode\n", "\ncheck of a value table\n", "\ncheck of the schema\n", "\nvalue of record "];
        assert!(calls.iter().any(|call| rest.contains(call)), "{fault}: {text}");
    }
}
