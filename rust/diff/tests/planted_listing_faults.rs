//! listing-diff against programs that are no listing: each is found, and so is a missing one.

use std::process::Command;

/// The exit code and what was printed, of a program that is named or not.
fn run(program: Option<&str>) -> (Option<i32>, String) {
    let mut command = Command::new(env!("CARGO_BIN_EXE_listing-diff"));
    command.args(["--count", "10"]).env_remove("SKIFF_LISTING").env_remove("SKIFF_RUNNER");
    if let Some(program) = program {
        command.env("SKIFF_LISTING", program);
    }
    let output = command.output().expect("listing-diff runs");
    (output.status.code(), String::from_utf8_lossy(&output.stdout).into_owned())
}

#[test]
fn a_program_that_prints_nothing() {
    let (code, text) = run(Some("/bin/true"));
    assert_eq!(code, Some(1), "{text}");
    assert!(text.contains("DIFFERENCE") && text.contains("of the plain reading:  "), "{text}");
}

#[test]
fn no_program() {
    assert_eq!(run(None).0, Some(2));
    assert_eq!(run(Some("/nowhere/listing")).0, Some(2));
}
