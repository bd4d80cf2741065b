//! name-diff against its test double: a right library passes, and each planted fault is found and made small. Runs
//! with `--features double`.

#![cfg(feature = "double")]

use std::process::Command;

/// The exit code and what was printed.
fn run(fault: &str, words: &[&str]) -> (Option<i32>, String) {
    let output = Command::new(env!("CARGO_BIN_EXE_name-diff"))
        .args(["--seed", "7"])
        .args(words)
        .env("DOUBLE_FAULT", fault)
        .output()
        .expect("name-diff runs");
    (output.status.code(), String::from_utf8_lossy(&output.stdout).into_owned())
}

/// All but the long slices.
#[test]
fn a_right_library_passes_and_all_is_met() {
    for (part, says) in [
        ("names", &["all of 0 to 3 bytes 16843009,", " refusal 33 "][..]),
        ("formats", &["refusal 10 ", "33 before 6: ", "3 before 33: "]),
        ("threads", &["calls by two threads at once: right"]),
    ] {
        let (code, text) = run("", &["--count", "800000", "--formats", "100000", "--only", part]);
        assert_eq!(code, Some(0), "{part}: {text}");
        assert!(text.trim_end().ends_with("0 differences"), "{part}: {text}");
        assert!(says.iter().all(|words| text.contains(words)), "{part}: {text}");
    }
}

/// How many bytes the smallest case has.
fn smallest<'a>(fault: &str, text: &'a str) -> (usize, &'a str) {
    let (_, rest) = text.split_once("smallest case found: ").unwrap_or_else(|| panic!("{fault}: {text}"));
    (rest.split(' ').next().unwrap().parse().expect(text), rest)
}

/// Each fault, and the smallest string that shows it.
#[test]
fn each_fault_of_a_string_is_found() {
    for (fault, name) in [
        ("c0_80_passes", "c080"),
        ("e0_80_80_passes", "e08080"),
        ("f0_80_80_80_passes", "f0808080"),
        ("ed_a0_80_passes", "eda080"),
        ("f4_90_80_80_passes", "f4908080"),
        ("f5_80_80_80_passes", "f5808080"),
        ("cut_in_its_last_character_passes", "00c2"),
        ("lone_continuation_passes", "80"),
        ("second_byte_is_not_looked_at", "c2c0"),
        ("eighth_byte_is_not_looked_at", "0000000000000080"),
        ("rest_of_eight_is_not_looked_at", "000000000000000080"),
        ("empty_name_is_refused", ""),
        ("zero_is_refused", "00"),
        ("noncharacters_are_refused", "efbfbe"),
        ("leading_feff_is_refused", "efbbbf"),
        ("10ffff_is_refused", "f48fbfbf"),
        ("d7ff_is_refused", "ed9fbf"),
        ("third_byte_after_ed_is_bounded_too", "ed80a0"),
        ("two_bytes_are_enough", "e0a080"),
        ("bad_name_has_a_place", "80"),
        ("bad_name_is_carried", "80"),
        ("name_tells_its_bytes", "00"),
    ] {
        let (code, text) = run(fault, &["--count", "100000", "--only", "names"]);
        assert_eq!(code, Some(1), "{fault}: {text}");
        let (bytes, rest) = smallest(fault, &text);
        assert_eq!(2 * bytes, name.len(), "{fault}: {text}");
        assert!(rest.contains(&format!(" bytes: {name}, ")), "{fault}: {text}");
        assert!(rest.contains("library: ") && rest.contains("plain: "), "{fault}: {text}");
    }
}

/// Faults that only long strings show.
#[test]
fn long_names() {
    for (fault, least) in [("names_past_255_bytes_pass", 256), ("length_is_cut_to_16_bits", 65_536)] {
        let (code, text) = run(fault, &["--count", "1000", "--only", "names"]);
        assert_eq!(code, Some(1), "{fault}: {text}");
        let (bytes, _) = smallest(fault, &text);
        assert!((least..2 * least).contains(&bytes), "{fault}: {text}");
    }
}

/// Each fault, the most bytes that its smallest case has, and what is said of it.
#[test]
fn each_fault_of_a_format_is_found() {
    for (fault, most, says) in [
        ("formats_with_bad_names_pass", 34, "plain:   returned 33"),
        ("names_come_after_no_tables", 50, "library: returned 6"),
        ("names_come_after_unknown_references", 66, "library: returned 7"),
        ("names_come_after_the_rules", 50, "plain:   returned 33"),
        ("names_come_before_depths", 69 * 16, "plain:   returned 3:"),
        ("names_come_before_forms", 50, "plain:   returned 2:"),
        ("unused_entries_are_not_looked_at", 66, "plain:   returned 33"),
        ("blocks_of_entries_are_not_looked_at", 66, "plain:   returned 33"),
        ("names_of_entries_are_not_looked_at", 66, "plain:   returned 33"),
        ("unknown_references_are_not_looked_at", 36, "library: returned 7"),
        ("names_below_columns_are_not_looked_at", 70, "plain:   returned 33"),
        ("name_of_the_root_is_not_looked_at", 34, "plain:   returned 33"),
        ("last_node_is_not_looked_at", 50, "plain:   returned 33"),
        ("names_in_no_block_are_looked_at", 50, "library: returned 33"),
        ("whole_store_is_looked_at", 2, "library: returned 33"),
        ("store_is_ascii_by_its_whole_eights", 34, "plain:   returned 33"),
        ("store_is_ascii_but_for_its_last_byte", 34, "plain:   returned 33"),
        ("store_as_long_as_the_records_passes", 80, "plain:   returned 33"),
        ("store_longer_than_the_records_passes", 81, "plain:   returned 33"),
        ("bad_name_of_a_format_has_a_place", 36, "refusal 33 at 1 "),
        ("encoder_does_not_look_at_names", 18, "the encoder's check"),
        ("encoder_looks_at_names_after_its_rules", 18, "the encoder's check"),
        ("encoder_looks_at_all_records", 34, "the encoder's check"),
        ("c0_80_passes", 36, "plain:   returned 33"),
        ("cut_in_its_last_character_passes", 36, "plain:   returned 33"),
        ("empty_name_is_refused", 36, "library: returned 33"),
        ("passes_a_column_without_a_name", 34, "plain:   returned 10"),
    ] {
        let (code, text) = run(fault, &["--formats", "200000", "--only", "formats"]);
        assert_eq!(code, Some(1), "{fault}: {text}");
        let (bytes, rest) = smallest(fault, &text);
        assert!(bytes <= most, "{fault}, {bytes} bytes: {text}");
        assert!(rest.contains(says), "{fault}, wanted {says:?}: {text}");
    }
}

/// An answer slice that is too short is left as it is.
#[test]
fn a_short_answer() {
    let (code, text) = run("names_into_a_short_answer", &["--count", "1000", "--only", "names"]);
    assert_eq!(code, Some(1), "{text}");
    assert!(text.contains("library: returned 1, answer slice"), "{text}");
}

/// It is stopped by a page that can't be read, and told as a difference.
#[test]
fn a_byte_beside_a_slice() {
    for fault in ["reads_one_byte_past", "reads_one_byte_before"] {
        let (code, text) = run(fault, &["--count", "1000"]);
        assert_eq!(code, Some(1), "{fault}: {text}");
        assert!(text.contains("DIFFERENCE: a call reads or writes outside of the slices"), "{fault}: {text}");
        assert!(text.contains("  a name of "), "{fault}: {text}");
    }
}

#[test]
fn two_threads() {
    let (code, text) = run("keeps_state_between_calls", &["--only", "threads"]);
    assert_eq!(code, Some(1), "{text}");
    assert!(text.contains("DIFFERENCE: two threads at once: "), "{text}");
}

#[test]
fn a_name_that_is_too_long() {
    let (code, text) = run("takes_a_name_of_any_length", &["--only", "huge"]);
    assert_eq!(code, Some(1), "{text}");
    assert!(text.contains("DIFFERENCE: a name of 4294967296 bytes"), "{text}");
}

/// Where there is no room for slices of 4,294,967,296 bytes the run has not done what it should have.
#[test]
fn slices_that_there_is_no_room_for() {
    let limited = format!("ulimit -v 4000000; exec {} --only huge", env!("CARGO_BIN_EXE_name-diff"));
    let output = Command::new("sh").args(["-c", &limited]).output().expect("a shell runs");
    assert_eq!(output.status.code(), Some(2));
    assert!(String::from_utf8_lossy(&output.stderr).contains("could not be tried"));
}
