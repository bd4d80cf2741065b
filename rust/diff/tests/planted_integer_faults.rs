//! integer-diff against its test double: a right library passes, and each planted fault is found and made small. Runs
//! with `--features double`.

#![cfg(feature = "double")]

use std::process::Command;

/// The exit code and what was printed.
fn run(fault: &str) -> (Option<i32>, String) {
    let output = Command::new(env!("CARGO_BIN_EXE_integer-diff"))
        .args(["--count", "3000", "--seed", "7"])
        .env("DOUBLE_FAULT", fault)
        .output()
        .expect("integer-diff runs");
    (output.status.code(), String::from_utf8_lossy(&output.stdout).into_owned())
}

#[test]
fn a_right_library_passes_and_all_is_met() {
    let (code, text) = run("");
    assert_eq!(code, Some(0), "{text}");
    assert!(text.trim_end().ends_with("0 differences"), "{text}");
    assert!(text.contains("all of 2 bytes 65536,") && text.contains("texts of 65 lengths"), "{text}");
}

/// Each fault, and how many bytes the smallest integer has that shows it.
#[test]
fn each_fault_is_found() {
    for (fault, smallest) in [
        ("sign_is_the_lowest_bytes", 2),
        ("sign_is_that_of_byte_15", 17),
        ("minus_one_is_a_huge_number", 1),
        ("carry_is_lost", 2),
        ("the_lowest_has_no_magnitude", 1),
        ("digits_in_stored_order", 2),
        ("a_leading_zero_is_kept", 1),
        ("zero_has_no_digits", 1),
        ("digits_in_capitals", 1),
        ("sixteen_digits_at_most", 9),
        ("no_bytes_are_zero", 0),
        ("bytes_past_the_32nd_are_left_out", 33),
        ("room_comes_before_the_width", 0),
        ("text_ends_in_a_zero_byte", 1),
        ("text_stands_at_the_end", 1),
        ("text_room_excludes_equality", 1),
        ("text_is_written_without_room", 1),
        ("text_room_carries_what_is_missing", 1),
        ("text_room_has_a_place", 1),
        ("texts_with_a_short_answer", 1),
    ] {
        let (code, text) = run(fault);
        assert_eq!(code, Some(1), "{fault}: {text}");
        let (_, rest) = text.split_once("smallest case found: ").expect(&text);
        let bytes: usize = rest.split(' ').next().unwrap().parse().expect(&text);
        assert_eq!(bytes, smallest, "{fault}: {text}");
        assert!(rest.contains("library: ") && rest.contains("plain: "), "{fault}: {text}");
    }
}

/// It is stopped by a page that can't be read, and told as a difference.
#[test]
fn a_byte_beside_a_slice() {
    for fault in ["reads_one_byte_past", "reads_one_byte_before"] {
        let (code, text) = run(fault);
        assert_eq!(code, Some(1), "{fault}: {text}");
        assert!(text.contains("DIFFERENCE: a call reads or writes outside of the slices"), "{fault}: {text}");
        assert!(text.contains(" bytes, the lowest first: "), "{fault}: {text}");
    }
}

#[test]
fn two_threads() {
    let (code, text) = run("keeps_state_between_calls");
    assert_eq!(code, Some(1), "{text}");
    assert!(text.contains("DIFFERENCE: two threads at once: "), "{text}");
}

/// Where there is no room for slices of 4,294,967,296 bytes the run has not done what it should have.
#[test]
fn slices_that_there_is_no_room_for() {
    let limited = format!("ulimit -v 4000000; exec {} --count 3", env!("CARGO_BIN_EXE_integer-diff"));
    let output = Command::new("sh").args(["-c", &limited]).output().expect("a shell runs");
    assert_eq!(output.status.code(), Some(2));
    assert!(String::from_utf8_lossy(&output.stderr).contains("could not be tried"));
}
