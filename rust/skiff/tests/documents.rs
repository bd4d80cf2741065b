//! What is written about the crate: the snippets of the project's README are among those that this crate's
//! own compiles and runs; and a missing archive is told in one line.

use std::process::Command;

const FOLDER: &str = env!("CARGO_MANIFEST_DIR");

/// The blocks of Rust in a text, fenced.
fn snippets(text: &str) -> Vec<&str> {
    let blocks = text.split("```rust\n").skip(1);
    blocks.map(|block| block.split("```").next().expect("a block ends")).collect()
}

#[test]
fn the_projects_snippets_are_compiled() {
    let own = include_str!("../README.md");
    assert_eq!(snippets(own).len(), 5);
    let project = std::fs::read_to_string(format!("{FOLDER}/../../README.md")).expect("it is there");
    assert!(!snippets(&project).is_empty());
    for snippet in snippets(&project) {
        assert!(snippets(own).contains(&snippet), "rust/skiff/README.md does not have:\n{snippet}");
    }
}

/// Each item of the original that the page names is named once.
#[test]
fn the_page_names_what_there_is() {
    let page = include_str!("../FROM-YTSAURUS-RS.md");
    let left = page.lines().filter_map(|line| line.strip_prefix("| ")?.split(" | ").next());
    let mut items: Vec<_> = left.filter(|item| item.starts_with('`')).collect();
    let count = items.len();
    items.sort_unstable();
    items.dedup();
    assert_eq!(items.len(), count);
    assert!(count > 50);
}

#[test]
fn a_missing_archive_is_one_error_that_says_what_to_do() {
    let target = format!("{}/missing-archive", env!("CARGO_TARGET_TMPDIR"));
    let built = Command::new(env!("CARGO"))
        .args(["build", "--offline", "--quiet", "--target-dir", &target])
        .current_dir(FOLDER)
        .env("SKIFF_ARCHIVE", "no/such/archive.a")
        .output()
        .expect("cargo runs");
    assert!(!built.status.success());
    let words = String::from_utf8_lossy(&built.stderr);
    let errors: Vec<_> = words.lines().filter(|line| line.contains("no/such/archive.a")).collect();
    let [error] = errors[..] else { panic!("one error: {words}") };
    for part in ["error: skiff", "is not there", "rust/build-archive", "SKIFF_ARCHIVE"] {
        assert!(error.contains(part), "{part} is not in {error}");
    }
    assert!(!words.contains("panicked"));
}
