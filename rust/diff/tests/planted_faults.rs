//! The harness against its test double: a right program passes, and each planted fault is found and
//! shrunk to what one would write down by hand.

use std::process::{Command, Output};

fn run(fault: &str, count: &str) -> Output {
    Command::new(env!("CARGO_BIN_EXE_schema-diff"))
        .args(["run", "--program", env!("CARGO_BIN_EXE_stand-in"), "--count", count, "--seed", "7"])
        .env("STAND_IN_FAULT", fault)
        .output()
        .expect("schema-diff runs")
}

fn text(output: &Output) -> String {
    String::from_utf8_lossy(&output.stdout).into_owned()
}

#[test]
fn a_right_program_passes() {
    let output = run("", "300000");
    let text = text(&output);
    assert_eq!(output.status.code(), Some(0), "{text}");
    assert!(text.trim_end().ends_with("0 differences"), "{text}");
    for number in (2..=11).chain([33]) {
        assert!(text.contains(&format!("refusal {number} ")), "refusal {number} was never met: {text}");
    }
}

/// The fault, the largest smallest case, and what its report says.
fn found(fault: &str, most_bytes: usize, says: &[&str]) {
    let output = run(fault, "400000");
    let text = text(&output);
    assert_eq!(output.status.code(), Some(1), "{fault}: {text}");
    let (_, rest) = text.split_once("smallest case found: ").expect(&text);
    let bytes: usize = rest.split(' ').next().unwrap().parse().expect(&text);
    assert!(bytes <= most_bytes, "{fault}: {text}");
    for part in says {
        assert!(text.contains(part), "{fault}, wanted {part:?}: {text}");
    }
}

#[test]
fn a_256th_child_of_repeated_variant8() {
    found("repeated_variant8_takes_256", 257 * 16, &["plain:    5 0 17 256 255", "original: number 5"]);
}

#[test]
fn a_65537th_child_of_variant16() {
    found("variant16_takes_65537", 65_538 * 16, &["plain:    5 0 16 65537 65536", "original: number 5"]);
}

#[test]
fn equal_names_in_the_registry() {
    found("equal_registry_names", 48, &["plain:    2 0 0 0 0", "original: outside"]);
}

#[test]
fn places_that_count_from_the_block() {
    found("place_counts_in_the_block", 48, &["plain:    "]);
}

#[test]
fn a_65th_level() {
    found("depth_65", 65 * 16, &["plain:    3 0 0 0 0", "original: outside"]);
}

#[test]
fn huge_numbers_that_are_cut() {
    found("numbers_cut_to_32_bits", 16, &["program:  0 0"]);
}

#[test]
fn an_empty_name_past_the_store() {
    found("empty_name_past_the_store", 16, &["PAST THE STORE", "plain:    2 0 0 0 0"]);
}

#[test]
fn names_after_the_rules() {
    found("names_come_after_the_rules", 33, &["plain:    33 0 0 0 0", "original: outside"]);
}

#[test]
fn a_node_that_is_its_own_child() {
    found("own_index_not_tested", 32, &["first child 1, 1 children", "plain:    2 0 0 0 0"]);
}

#[test]
fn siblings_before_children() {
    found("later_sibling_first", 6 * 16, &["plain:    4 3 "]);
}

#[test]
fn an_unused_registry_entry() {
    found("unused_entry_not_checked", 32, &["registry: 1"]);
}

#[test]
fn a_program_that_dies() {
    found("dies_without_tables", 0, &["program:  NO ANSWER", "plain:    6 0 0 0 0"]);
}

#[test]
fn a_program_that_keeps_something_between_cases() {
    let output = run("keeps_something", "300000");
    let text = text(&output);
    assert_eq!(output.status.code(), Some(1), "{text}");
    assert!(text.contains("rightly when asked alone"), "{text}");
}
