//! The files for replay and for timing, through the commands that write them.

use std::fs;
use std::process::{Command, Stdio};

fn schema_diff(words: &[&str]) {
    let status = Command::new(env!("CARGO_BIN_EXE_schema-diff")).args(words).stdout(Stdio::null()).status();
    assert!(status.expect("schema-diff runs").success());
}

fn replayed(cases: &str) -> String {
    let stdin = fs::File::open(cases).expect("the cases were written");
    let output = Command::new(env!("CARGO_BIN_EXE_stand-in")).stdin(stdin).output();
    String::from_utf8(output.expect("the stand-in runs").stdout).expect("answers are digits")
}

fn recorded(program: &str, fewest: usize) {
    let folder = env!("CARGO_TARGET_TMPDIR");
    let (cases, answers) = (format!("{folder}/{program}.stdin"), format!("{folder}/{program}.stdout"));
    schema_diff(&["record", program, &cases, &answers]);
    assert!(fs::metadata(&cases).unwrap().len() < 300_000);
    let answers = fs::read_to_string(&answers).unwrap();
    assert!(answers.lines().count() > fewest);
    assert_eq!(replayed(&cases), answers);
    // What the gate has is this.
    let gate = format!("{}/../../crates/{program}", env!("CARGO_MANIFEST_DIR"));
    assert!(
        fs::read(&cases).unwrap() == fs::read(format!("{gate}/stdin")).unwrap(),
        "{program}: other cases"
    );
    assert!(answers == fs::read_to_string(format!("{gate}/stdout")).unwrap(), "{program}: other answers");
}

#[test]
fn a_recording_of_reading_is_small_and_replays() {
    recorded("replay", 900);
}

#[test]
fn a_recording_of_writing_is_small_and_replays() {
    recorded("replay_write", 500);
}

#[test]
fn a_recording_of_indexes_is_small_and_replays() {
    recorded("replay_index", 300);
}

#[test]
fn cases_for_timing_are_accepted() {
    let folder = format!("{}/bench", env!("CARGO_TARGET_TMPDIR"));
    schema_diff(&["bench-cases", &folder, "--count", "2"]);
    for records in [1_024, 4_096, 16_384, 65_536, 131_072] {
        assert_eq!(replayed(&format!("{folder}/format-{records}.cases")), "0 0 0 0 0\n0 0 0 0 0\n");
    }
}
