//! The command, run, and files of a test's own.

#![allow(dead_code, reason = "each test uses a part")]

use std::fs;
use std::io::Write;
use std::path::{Path, PathBuf};
use std::process::{Child, Command, Output, Stdio};

pub const SKIFF: &str = env!("CARGO_BIN_EXE_skiff");

pub fn examples() -> PathBuf {
    Path::new(env!("CARGO_MANIFEST_DIR")).join("../../examples")
}

/// A folder of the test's own, empty.
pub fn folder(name: &str) -> PathBuf {
    let folder = Path::new(env!("CARGO_TARGET_TMPDIR")).join(name);
    let _ = fs::remove_dir_all(&folder);
    fs::create_dir_all(&folder).expect("it can be made");
    folder
}

/// A file of such a folder, by its name.
pub fn file(folder: &Path, name: &str, bytes: impl AsRef<[u8]>) -> String {
    let path = folder.join(name);
    fs::write(&path, bytes).expect("it can be written");
    path.to_str().expect("text").to_owned()
}

pub fn start(words: &[&str], input: Stdio) -> Child {
    let mut command = Command::new(SKIFF);
    command.args(words).current_dir(examples()).stdin(input);
    command.stdout(Stdio::piped()).stderr(Stdio::piped()).spawn().expect("it runs")
}

/// Runs it with these bytes on standard input.
pub fn with_input(words: &[&str], input: impl AsRef<[u8]>) -> Output {
    let mut child = start(words, Stdio::piped());
    let mut stdin = child.stdin.take().expect("it is piped");
    let input = input.as_ref().to_vec();
    // It may end before it has read all.
    let writer = std::thread::spawn(move || stdin.write_all(&input).is_ok());
    let output = child.wait_with_output().expect("it ends");
    writer.join().expect("the input is written");
    output
}

pub fn skiff(words: &[&str]) -> Output {
    with_input(words, [])
}

/// Status, standard output and standard error.
#[track_caller]
pub fn told(output: &Output) -> (i32, String, String) {
    let text = |bytes: &[u8]| String::from_utf8(bytes.to_vec()).expect("text");
    (output.status.code().expect("a status"), text(&output.stdout), text(&output.stderr))
}

#[track_caller]
pub fn accepted(output: &Output) -> String {
    let (status, words, errors) = told(output);
    assert_eq!((status, errors.as_str()), (0, ""), "{words}");
    words
}

pub fn rows() -> Vec<u8> {
    fs::read(examples().join("rows.skf")).expect("it is there")
}
