//! Names that are no UTF-8: what is said of them, by each subcommand, and that all others are shown as they are.

mod common;

use std::fs;

use common::{accepted, file, folder, skiff, told, with_input};

/// The words of the refusal, which carries nothing.
const REFUSED: &str = "refused 33 NameNotUtf8 at 0";

/// A column of the second table, by a text of its own; and what is said of it.
const COLUMN: &str = "table\n  page: uint8\ntable\n  id: uint64\n  \"n\\xc0\\x80\": optional boolean\n";
const OF_COLUMN: &str = r#"table 1, schema record 4: name "n\xc0\x80", not UTF-8 from byte 1 on: c0 80"#;

#[test]
fn every_subcommand_says_which_name_it_is() {
    let folder = folder("names");
    let bad = file(&folder, "bad.txt", COLUMN);
    let words = format!("{REFUSED}: {OF_COLUMN}\n");
    assert_eq!(told(&skiff(&["check", &bad])), (1, words.clone(), String::new()));
    let run = format!("{REFUSED} after 0 rows, 0 bytes: {OF_COLUMN}\n");
    assert_eq!(told(&skiff(&["run", &bad, "rows.skf"])), (1, run, String::new()));
    let (status, out, errors) = told(&skiff(&["list", &bad, "rows.skf"]));
    assert_eq!((status, out.as_str()), (1, "refused 33 0\n"));
    assert_eq!(errors, format!("skiff: {bad}: {OF_COLUMN}\n"));
    let index = folder.join("rows.index");
    let index = ["index", &bad, "rows.skf", "--index", index.to_str().expect("text")];
    assert_eq!(told(&skiff(&index)), (1, words, String::new()));
    for subcommand in [
        &["cat", "--json", &bad, "rows.skf"][..],
        &["row", "0", &bad, "rows.skf"],
        &["encode", &bad],
        &["schema", &bad],
        &["schema", &bad, "--output", "never"],
    ] {
        let (status, out, errors) = told(&skiff(subcommand));
        assert_eq!((status, out.as_str()), (1, ""), "{subcommand:?}");
        assert!(errors.contains(&format!("{REFUSED}: {OF_COLUMN}\n")), "{subcommand:?}: {errors}");
    }
    assert!(!common::examples().join("never").exists());
}

/// The registry comes first, each entry's own name before those below it; then the tables.
#[test]
fn each_place_of_a_name_is_told() {
    let said = |text: &str| {
        let bad = file(&folder("places"), "bad.txt", text);
        let (status, out, _) = told(&skiff(&["check", &bad]));
        assert_eq!(status, 1, "{out}");
        out.trim_end().strip_prefix(&format!("{REFUSED}: ")).expect(&out).to_owned()
    };
    assert_eq!(
        said("table r\nschema r\n  a: int8\nschema \"\\xff\"\n  b: int8\n"),
        r#"registry schema 1: name "\xff", not UTF-8 from byte 0 on: ff"#
    );
    assert_eq!(
        said("table r\nschema r\n  a: tuple\n    \"x\\xed\\xa0\\x80\": int8\n"),
        r#"registry schema 0, schema record 2: name "x\xed\xa0\x80", not UTF-8 from byte 1 on: ed a0 80"#
    );
    assert_eq!(
        said("table\n  a: int8\ntable \"cut \\xe2\\x82\"\n"),
        r#"table 1, reference: name "cut \xe2\x82", not UTF-8 from byte 4 on: e2 82"#
    );
    // A long name is shown in part.
    let long = said(&format!("table\n  \"{}\\xff\": int8\n", "long ".repeat(20)));
    assert!(long.ends_with(r#"long ..", not UTF-8 from byte 100 on: ff"#), "{long}");
}

/// Flat tables as a partner's generator left them: the store alone is what is wrong.
#[test]
fn a_folder_of_tables() {
    let tables = folder("tables-of-names");
    let good = file(&tables, "good.txt", "table\n  NAME: string32\n");
    let made = tables.join("made").to_str().expect("text").to_owned();
    accepted(&skiff(&["schema", &good, "--output", &made]));
    assert_eq!(accepted(&skiff(&["check", &made])), "accepted\n");
    fs::write(tables.join("made/schema.nam"), b"\xD5\xC1\xD4\xC5").expect("it can be written");
    let words = r#"table 0, schema record 1: name "\xd5\xc1\xd4\xc5", not UTF-8 from byte 0 on: d5 c1 d4 c5"#;
    assert_eq!(told(&skiff(&["check", &made])), (1, format!("{REFUSED}: {words}\n"), String::new()));
}

/// Text of every sort is a name: rows and schemas go there and back.
#[test]
fn all_other_names() {
    let text = "table\n  \"\\xd0\\xb8\\xd0\\xbc\\xd1\\x8f\": uint8\n  \"a\\x00b\": uint8\n  \
                \"\\xef\\xbb\\xbf\\xef\\xbf\\xbf\\xf4\\x8f\\xbf\\xbf\": uint8\n";
    let schema = file(&folder("text"), "names.txt", text);
    let line = "{\"имя\":1,\"a\\u0000b\":2,\"\u{FEFF}\u{FFFF}\u{10FFFF}\":3}\n";
    let stream = with_input(&["encode", &schema], line);
    assert_eq!(stream.stdout, [0, 0, 1, 2, 3]);
    assert_eq!(accepted(&with_input(&["cat", "--json", &schema, "-"], &stream.stdout)), line);
    assert_eq!(accepted(&skiff(&["schema", &schema])), text);
    // The same names as they are.
    let plain = file(&folder("text"), "plain.txt", "table\n  имя: uint8\n");
    assert_eq!(accepted(&with_input(&["cat", "--json", &plain, "-"], [0, 0, 1])), "{\"имя\":1}\n");
}
