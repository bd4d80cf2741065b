//! The index beside a stream, and rows by their numbers, as a person asks for them.

mod common;

use std::fs::{self, File};
use std::path::Path;
use std::process::Command;

use common::{accepted, examples, file, folder, rows, skiff, told, with_input, SKIFF};

/// A stream of the test's own, and the name of the index beside it.
fn delivery(name: &str, bytes: &[u8]) -> (String, String) {
    let stream = file(&folder(name), "rows.skf", bytes);
    let index = format!("{stream}.index");
    (stream, index)
}

/// Where the rows of examples/ begin, and where the last one ends.
const STARTS: [usize; 6] = [0, 10, 23, 37, 41, 49];

/// The index of the first rows of examples/, by hand.
fn records(rows: usize) -> Vec<u8> {
    let record = |row: usize| {
        let mut bytes = (STARTS[row] as u64).to_le_bytes().to_vec();
        bytes.extend(((STARTS[row + 1] - STARTS[row]) as u32).to_le_bytes());
        bytes.extend([0; 4]);
        bytes
    };
    (0..rows).flat_map(record).collect()
}

fn read(name: &str) -> Vec<u8> {
    fs::read(name).expect("it is there")
}

#[test]
fn built_checked_and_extended() {
    let (stream, index) = delivery("extended", &rows()[..STARTS[2]]);
    assert_eq!(accepted(&skiff(&["index", ".", &stream])), "end 2 23\n");
    assert_eq!(read(&index), records(2));
    assert_eq!(accepted(&skiff(&["index", "--check", ".", &stream])), "end 2 23\n");
    fs::write(&stream, rows()).expect("it can be written");
    let (status, out, errors) = told(&skiff(&["index", "--check", ".", &stream]));
    assert_eq!((status, out.as_str(), errors.as_str()), (1, "refused 31 IndexMismatch at 0\n", ""));
    assert_eq!(accepted(&skiff(&["index", "--extend", ".", &stream])), "end 5 49\n");
    assert_eq!(read(&index), records(5));
    assert_eq!(accepted(&skiff(&["index", "--extend", ".", &stream])), "end 5 49\n");
    assert_eq!(accepted(&skiff(&["index", "--check", ".", &stream])), "end 5 49\n");
    // What was not written whole is made whole.
    fs::write(&index, &records(5)[..40]).expect("it can be written");
    assert_eq!(accepted(&skiff(&["index", "--extend", ".", &stream])), "end 5 49\n");
    assert_eq!(read(&index), records(5));
    let beside = Path::new(&stream).parent().expect("a folder");
    assert_eq!(fs::read_dir(beside).expect("a folder").count(), 2);
}

#[test]
fn a_refused_index_leaves_the_file_as_it_was() {
    let (stream, index) = delivery("refused", &rows()[..40]);
    let words = "refused 12 Truncated (context 15 variant8-tag) at 40: byte 40, row 3, column \"name\"\n";
    let refused = |flags: &[&str]| {
        let (status, out, errors) = told(&skiff(&[&["index"], flags, &[".", &stream]].concat()));
        assert_eq!((status, errors.as_str()), (1, ""));
        out
    };
    assert_eq!(refused(&[]), words);
    assert!(!Path::new(&index).exists());
    fs::write(&index, records(3)).expect("it can be written");
    for flags in [&[][..], &["--check"], &["--extend"]] {
        assert_eq!(refused(flags), words);
        assert_eq!(refused(&[flags, &["--node-charge", "0"]].concat()), "refused 1 Setting at 0\n");
        assert_eq!(read(&index), records(3));
    }
    // A stream that lost a row, and one whose rows are others.
    for other in [rows()[..STARTS[2]].to_vec(), rows()[STARTS[1]..].to_vec()] {
        fs::write(&stream, other).expect("it can be written");
        assert_eq!(refused(&["--extend"]), "refused 31 IndexMismatch at 0\n");
        assert_eq!(read(&index), records(3));
    }
    let bad = file(&folder("refused-format"), "bad.txt", "table\n  uint8\n");
    let (status, out, _) = told(&skiff(&["index", &bad, &stream]));
    let words = "refused 10 TableSchemaChildMissingName (index 0) at 1: schema record 1, table 0, field 0\n";
    assert_eq!((status, out.as_str()), (1, words));
    let (status, out, errors) = told(&skiff(&["row", "0", &bad, &stream]));
    assert_eq!((status, out.as_str()), (1, ""));
    assert!(errors.contains(words.trim_end()), "{errors}");
}

/// Each row is shown as `list` and `cat` show it.
#[test]
fn rows_by_their_numbers() {
    let (stream, _) = delivery("rows", &rows());
    assert_eq!(accepted(&skiff(&["index", ".", &stream])), "end 5 49\n");
    let listing = accepted(&skiff(&["list", ".", "rows.skf"]));
    let lines = accepted(&skiff(&["cat", "--json", ".", "rows.skf"]));
    for (number, line) in lines.lines().enumerate() {
        let row = number.to_string();
        let own = listing.split_inclusive('\n').filter(|line| line.starts_with(&format!("{row} ")));
        assert_eq!(accepted(&skiff(&["row", &row, ".", &stream])), own.collect::<String>());
        assert_eq!(accepted(&skiff(&["row", "--json", &row, ".", &stream])), format!("{line}\n"));
    }
    for none in ["5", "18446744073709551615"] {
        let (status, out, errors) = told(&skiff(&["row", none, ".", &stream]));
        assert_eq!((status, out.as_str()), (1, ""));
        assert_eq!(errors, format!("skiff: {stream}: refused 32 NoSuchRow at 0: row {none}\n"));
    }
    let (status, _, errors) = told(&skiff(&["row", "--max-string32-bytes", "1", "1", ".", &stream]));
    let words = "refused 14 BlobTooLarge (type 13 string32, length 5, limit 1) at 14";
    assert_eq!(status, 1);
    assert_eq!(errors, format!("skiff: {stream}: {words}: byte 14, row 1, column \"name\", tag 1\n"));
    for bad in ["-1", "x", "18446744073709551616"] {
        assert_eq!(told(&skiff(&["row", bad, ".", &stream])).0, 2);
    }
}

#[test]
fn an_index_that_is_another_streams() {
    let (stream, index) = delivery("another", &rows());
    let mut wrong = records(5);
    wrong[16] = 3;
    wrong[32 + 8] += 1;
    fs::write(&index, &wrong).expect("it can be written");
    for row in ["0", "3", "4"] {
        accepted(&skiff(&["row", row, ".", &stream]));
    }
    let refused = |row: &str| {
        let (status, out, errors) = told(&skiff(&["row", row, ".", &stream]));
        assert_eq!((status, out.as_str()), (1, ""));
        errors
    };
    assert_eq!(refused("2"), format!("skiff: {stream}: refused 31 IndexMismatch at 0: row 2\n"));
    // Byte 3 is no row's start.
    let words = "refused 11 MissingTableSchema (table 513) at 3: byte 3, row 1";
    assert_eq!(refused("1"), format!("skiff: {stream}: {words}\n"));
}

#[test]
fn the_index_may_stand_elsewhere() {
    let index = folder("elsewhere").join("of-rows").to_str().expect("text").to_owned();
    let built = with_input(&["index", "--index", &index, ".", "-"], rows());
    assert_eq!(accepted(&built), "end 5 49\n");
    assert_eq!(read(&index), records(5));
    let shown = with_input(&["row", "--json", "--index", &index, "0", ".", "-"], rows());
    assert!(accepted(&shown).starts_with("{\"page\":"));
    let (status, out, errors) = told(&with_input(&["index", ".", "-"], rows()));
    assert_eq!((status, out.as_str()), (2, ""));
    assert_eq!(errors, "skiff: standard input has no index beside it: --index names one\n");
    for words in
        [&["index", "--index", "-", ".", "rows.skf"][..], &["row", "--index", "-", "0", ".", "rows.skf"]]
    {
        assert_eq!(told(&skiff(words)), (2, String::new(), "skiff: an index is a file\n".to_owned()));
    }
}

/// A slip in the names costs no stream.
#[test]
fn the_index_is_not_the_stream() {
    let (stream, _) = delivery("one-file", &rows());
    for words in [&["index"][..], &["index", "--extend"], &["index", "--check"], &["row", "0"]] {
        let words = [words, &["--index", &stream, ".", &stream]].concat();
        let one = (2, String::new(), "skiff: the index and the stream are one file\n".to_owned());
        assert_eq!(told(&skiff(&words)), one);
        assert_eq!(read(&stream), rows());
    }
}

#[test]
fn files_that_are_none() {
    let (stream, index) = delivery("none", &rows());
    for words in [&["index", "--check"][..], &["index", "--extend"], &["row", "0"]] {
        let (status, out, errors) = told(&skiff(&[words, &[".", &stream]].concat()));
        assert_eq!((status, out.as_str()), (2, ""));
        assert!(errors.starts_with(&format!("skiff: {index}: ")), "{errors}");
    }
    assert_eq!(told(&skiff(&["index", "--check", "--extend", ".", &stream])).0, 2);
    fs::write(&index, []).expect("it can be written");
    for words in [&["index"][..], &["index", "--check"], &["index", "--extend"], &["row", "0"]] {
        let with = |stream: &str| told(&skiff(&[words, &["--index", &index, ".", stream]].concat()));
        let (status, out, errors) = with("no-such.skf");
        assert_eq!((status, out.as_str()), (2, ""));
        assert!(errors.starts_with("skiff: no-such.skf: "), "{errors}");
        assert_eq!(with(".").2, "skiff: .: a folder in place of a file\n");
    }
    let nowhere = told(&skiff(&["index", "--index", "no/such/folder/x", ".", &stream]));
    assert_eq!(nowhere.0, 2);
}

#[test]
fn a_full_disk_is_told() {
    let (stream, _) = delivery("full", &rows());
    accepted(&skiff(&["index", ".", &stream]));
    for words in [&["index", "--check", ".", &stream][..], &["row", "0", ".", &stream]] {
        let full = File::options().write(true).open("/dev/full").expect("Linux has one");
        let output = Command::new(SKIFF).args(words).current_dir(examples()).stdout(full).output();
        let (status, _, errors) = told(&output.expect("it runs"));
        assert_eq!(status, 2, "{words:?}");
        assert!(errors.starts_with("skiff: the output: "), "{errors}");
    }
    let (status, out, errors) = told(&skiff(&["index", "--index", "/dev/full", ".", &stream]));
    assert_eq!((status, out.as_str()), (2, ""));
    assert!(errors.starts_with("skiff: the output: "), "{errors}");
}
