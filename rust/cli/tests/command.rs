//! The command as a person runs it.

mod common;

use std::fs::{self, File};
use std::io::{Read, Write};
use std::process::{Command, Stdio};

use common::{accepted, examples, file, folder, rows, skiff, start, told, with_input, SKIFF};

#[test]
fn usage() {
    for subcommand in ["check", "run", "list", "cat", "index", "row", "encode", "schema"] {
        let help = accepted(&skiff(&[subcommand, "--help"]));
        assert!(help.contains("Usage:") && help.contains("FORMAT"), "{help}");
        assert_eq!(told(&skiff(&[subcommand])).0, 2);
        assert_eq!(told(&skiff(&[subcommand, "--no-such-option"])).0, 2);
    }
    let no_jobs = ["run", ".", "rows.skf", "-j", "0"];
    for words in [&[][..], &["no-such-subcommand"], &no_jobs, &["cat", ".", "rows.skf"]] {
        let (status, out, errors) = told(&skiff(words));
        assert_eq!((status, out.as_str()), (2, ""));
        assert!(!errors.is_empty());
    }
    assert_eq!(accepted(&skiff(&["--version"])), "skiff 0.1.0\n");
}

#[test]
fn check() {
    assert_eq!(accepted(&skiff(&["check", "."])), "accepted\n");
    let bad = file(&folder("check"), "bad.txt", "table\n  uint8\n");
    let words = "refused 10 TableSchemaChildMissingName (index 0) at 1";
    let check = told(&skiff(&["check", &bad]));
    assert_eq!(check, (1, format!("{words}: schema record 1, table 0, field 0\n"), String::new()));
    let run = told(&skiff(&["run", &bad, "rows.skf"]));
    assert_eq!(run, (1, format!("{words} after 0 rows, 0 bytes\n"), String::new()));
    assert_eq!(told(&skiff(&["list", &bad, "rows.skf"])), (1, "refused 10 1\n".to_owned(), String::new()));
    for subcommand in [&["cat", "--json", &bad, "rows.skf"][..], &["encode", &bad], &["schema", &bad]] {
        let (status, out, errors) = told(&skiff(subcommand));
        assert_eq!((status, out.as_str()), (1, ""));
        assert!(errors.contains(words));
    }
    for none in ["no/such/format", "rows.skf"] {
        let (status, _, errors) = told(&skiff(&["check", none]));
        assert_eq!(status, 2, "{errors}");
    }
}

#[test]
fn run() {
    assert_eq!(accepted(&skiff(&["run", ".", "rows.skf"])), "end 5 49\n");
    assert_eq!(accepted(&with_input(&["run", ".", "-"], rows())), "end 5 49\n");
    let words =
        "refused 12 Truncated (context 15 variant8-tag) at 40 after 3 rows, 37 bytes: column \"name\"\n";
    let cut = with_input(&["run", ".", "-"], &rows()[..40]);
    assert_eq!(told(&cut), (1, words.to_owned(), String::new()));
    let limited = told(&skiff(&["run", "--max-row-bytes", "47", ".", "rows.skf"]));
    let words = "refused 13 RowTooLarge (limit 47) at 2 after 0 rows, 0 bytes\n";
    assert_eq!(limited, (1, words.to_owned(), String::new()));
    let setting = told(&skiff(&["run", "--node-charge", "0", ".", "rows.skf"]));
    assert_eq!(setting.1, "refused 1 Setting at 0 after 0 rows, 0 bytes\n");
}

#[test]
fn several_streams_in_the_order_given() {
    let folder = folder("several");
    let mut names: Vec<String> = (0..20)
        .map(|index| {
            // Long ones first, so that short ones are done before them.
            let stream = rows().repeat(if index < 3 { 20_000 } else { index });
            file(&folder, &format!("{index}.skf"), &stream[..stream.len() - usize::from(index == 7)])
        })
        .collect();
    names.insert(5, "no-such.skf".to_owned());
    let mut words = vec!["run", "--jobs", "4", "."];
    words.extend(names.iter().map(String::as_str));
    let (status, out, errors) = told(&skiff(&words));
    assert_eq!(status, 2);
    assert!(errors.starts_with("skiff: no-such.skf: ") && errors.lines().count() == 1);
    let lines: Vec<_> = out.lines().collect();
    assert_eq!(lines.len(), 20);
    for (line, name) in lines.iter().zip(names.iter().filter(|name| *name != "no-such.skf")) {
        assert!(line.starts_with(&format!("{name}: ")), "{line}");
    }
    assert!(lines[0].ends_with("end 100000 980000") && lines[19].ends_with("end 95 931"));
    assert!(lines[7].contains("refused 12"));
    words.retain(|name| *name != "no-such.skf");
    assert_eq!(told(&skiff(&words)), (1, out, String::new()));
    assert_eq!(told(&skiff(&["run", ".", "-", "-"])).0, 2);
}

#[test]
fn list() {
    let schema = file(&folder("list"), "b.txt", "table\n  v: repeated_variant8\n    boolean\n    int8\n");
    let lines = "0 1 0 tuple 1\n0 2 0 repeated_variant 2\n0 3 0 boolean 1\n0 3 1 int8 -2\n";
    let row = [0, 0, 0, 7, 1, 0xFE, 0xFF];
    let all = accepted(&with_input(&["list", &schema, "-"], row));
    assert_eq!(all, format!("{lines}end 1 7\n"));
    let (status, out, errors) = told(&with_input(&["list", &schema, "-"], [&row[..], &row[..3]].concat()));
    assert_eq!((status, out), (1, format!("{lines}refused 12 10\n")));
    assert!(errors.contains("column \"v\""));
    assert_eq!(accepted(&with_input(&["list", &schema, "-"], [])), "end 0 0\n");
    assert_eq!(accepted(&skiff(&["list", ".", "rows.skf"])).lines().last(), Some("end 5 49"));
}

const EVERY_FORM: &str = r#"table
  nothing: nothing
  truth: boolean
  "two words": int8
  long: int64
  longer: uint64
  wide: int128
  wider: int256
  double: double
  text: string32
  yson: yson32
  maybe: optional string32
  deep: optional variant8
    nothing
    int8
  choice: variant16
    int8
    tuple
      x: double
      y: double
  numbers: repeated_variant8
    uint8
  mixed: repeated_variant16
    uint8
    boolean
  pair: tuple
    int8
    int8
  truth: optional boolean
"#;

/// Every form of value, there and back.
#[test]
fn json_there_and_back() {
    let schema = file(&folder("json"), "all.txt", EVERY_FORM);
    // Two columns have one name, so that a row is an array. `deep` is a variant whose second choice may be
    // null itself, so that it has a tag.
    let lines = [
        r#"[null,true,-8,"-9223372036854775808",9007199254740992,"#,
        r#""-80000000000000000000000000000000","#,
        r#""-8000000000000000000000000000000000000000000000000000000000000000","#,
        r#"-0.0,"grün \"q\"",{"base64":"0cU="},"hi",{"tag":1,"value":5},"#,
        r#"{"tag":1,"value":{"x":0.1,"y":5e-324}},[1,2,3],[{"tag":1,"value":true},{"tag":0,"value":7}],"#,
        "[1,-2],false]\n",
        r#"[null,false,0,0,0,"0","0",{"bits":"7ff0000000000001"},"","",null,{"tag":0,"value":null},"#,
        r#"{"tag":0,"value":0},[],[],[0,0],null]"#,
        "\n",
    ]
    .concat();
    let stream = with_input(&["encode", &schema], &lines);
    let errors = String::from_utf8_lossy(&stream.stderr);
    assert_eq!((stream.status.code(), errors.as_ref()), (Some(0), ""));
    assert_eq!(accepted(&with_input(&["cat", "--json", &schema, "-"], &stream.stdout)), lines);
    assert_eq!(accepted(&skiff(&["schema", &schema])), EVERY_FORM);

    let first = accepted(&skiff(&["cat", "--json", ".", "rows.skf"]));
    assert_eq!(first.lines().count(), 5);
    assert_eq!(with_input(&["encode", "."], &first).stdout, rows());
}

/// An int128 and an int256 in hexadecimal, the highest digit first; a number of JSON is decimal.
#[test]
fn wide_integers() {
    let schema = file(&folder("wide"), "wide.txt", "table\n  wide: int128\n  wider: int256\n");
    let lines = "{\"wide\":\"-1\",\"wider\":\"ff\"}\n{\"wide\":\"0\",\"wider\":\"-123456789abcdef0123456789abcdef00\"}\n";
    let stream = with_input(&["encode", &schema], lines);
    assert_eq!(accepted(&with_input(&["cat", "--json", &schema, "-"], &stream.stdout)), lines);
    let listed = [
        "0 1 0 tuple 2\n0 2 0 int128 -1\n0 2 0 int256 ff\n",
        "1 1 0 tuple 2\n1 2 0 int128 0\n1 2 0 int256 -123456789abcdef0123456789abcdef00\nend 2 100\n",
    ];
    assert_eq!(accepted(&with_input(&["list", &schema, "-"], &stream.stdout)), listed.concat());
    let numbers = with_input(&["encode", &schema], "{\"wide\":-10,\"wider\":18446744073709551615}");
    let shown = accepted(&with_input(&["cat", "--json", &schema, "-"], &numbers.stdout));
    assert_eq!(shown, "{\"wide\":\"-a\",\"wider\":\"ffffffffffffffff\"}\n");

    let refused = |wide: &str| {
        let line = format!("{{\"wide\":{wide},\"wider\":0}}");
        let (status, _, errors) = told(&with_input(&["encode", &schema], line));
        assert_eq!(status, 1);
        errors.strip_prefix("skiff: -: line 1: column \"wide\": ").expect("the column").trim_end().to_owned()
    };
    assert_eq!(refused("\"0x1\""), "\"0x1\" is no int128 in hexadecimal");
    let too_wide = format!("\"8{}\"", "0".repeat(31));
    assert_eq!(refused(&too_wide), format!("{too_wide} is no int128 in hexadecimal"));
    assert_eq!(refused("true"), "a boolean is no int128");
    assert_eq!(refused("1.5"), "a number is no int128");
    assert_eq!(refused("18446744073709551616"), "a number is no int128");
}

#[test]
fn json_of_several_tables() {
    let schema = file(&folder("tables"), "two.txt", "table\n  a: uint8\ntable b\nschema b\n  b: int8\n");
    let lines = "{\"table\":0,\"row\":{\"a\":1}}\n{\"table\":1,\"row\":{\"b\":-1}}\n";
    assert_eq!(accepted(&with_input(&["cat", "--json", &schema, "-"], [0, 0, 1, 1, 0, 0xFF])), lines);
    let (status, _, errors) = told(&with_input(&["encode", &schema], lines));
    assert_eq!((status, errors.as_str()), (1, "skiff: -: line 2: only rows of table 0 can be written\n"));
}

#[test]
fn bad_json_is_told_by_line_and_column() {
    let refused = |lines: &str| {
        let (status, _, errors) = told(&with_input(&["encode", "."], lines));
        assert_eq!(status, 1);
        errors.strip_prefix("skiff: -: ").expect("the file's name").trim_end().to_owned()
    };
    let good = "{\"page\":1,\"name\":null}\n\n{\"page\":2}\n";
    assert_eq!(refused(&format!("{good}{{\"page\":256}}")), "line 4: column \"page\": 256 is no uint8");
    assert_eq!(refused("{\"page\":\"x\"}"), "line 1: column \"page\": text is no uint8");
    assert_eq!(refused("{\"page\":1.5}"), "line 1: column \"page\": a number is no uint8");
    assert_eq!(refused("{\"name\":null}"), "line 1: column \"page\": it is missing");
    assert_eq!(refused("{\"page\":1,\"nom\":1}"), "line 1: there is no column \"nom\"");
    assert_eq!(refused("{\"page\":1,\"name\":true}"), "line 1: column \"name\": a boolean is no string32");
    assert_eq!(refused("[1]"), "line 1: an array is no tuple");
    assert_eq!(refused("{\"page\":1,"), "line 1: column 10: EOF while parsing a value");
    assert_eq!(refused("{\"page\":1,\"page\":2}"), "line 1: column 19: \"page\" stands twice");
    assert!(refused("\u{1}").starts_with("line 1: column 1: "));
    let limited = ["encode", "--max-string32-bytes", "1", "."];
    let (status, _, errors) = told(&with_input(&limited, "{\"page\":1,\"name\":\"hi\"}"));
    assert_eq!(status, 1);
    assert!(errors.contains("line 1: refused 14 BlobTooLarge") && errors.contains("column \"name\""));
}

/// A name of two bytes and a note of three: each limit is its own type's, in every subcommand that has them.
#[test]
fn a_limit_for_each_type_of_blob() {
    let folder = folder("limits");
    let schema = file(&folder, "both.txt", "table\n  name: string32\n  note: yson32\n");
    let stream = folder.join("both.skf").to_str().expect("text").to_owned();
    let line = "{\"name\":\"hi\",\"note\":\"[1]\"}\n";
    assert_eq!(accepted(&with_input(&["encode", &schema, "-o", &stream], line)), "");
    accepted(&skiff(&["index", &schema, &stream]));
    let long_name = "refused 14 BlobTooLarge (type 13 string32, length 2, limit 1)";
    let long_note = "refused 14 BlobTooLarge (type 14 yson32, length 3, limit 2)";
    let over = "refused 1 Setting";
    for (string32, yson32, refusal) in [
        ("2", "3", None),
        ("4294967295", "4294967295", None),
        ("1", "3", Some(long_name)),
        ("3", "2", Some(long_note)),
        ("4294967296", "3", Some(over)),
        ("2", "4294967296", Some(over)),
    ] {
        let limits = ["--max-string32-bytes", string32, "--max-yson32-bytes", yson32];
        let of_stream = [&schema[..], &stream];
        for (subcommand, given) in [
            (&["run"][..], &of_stream[..]),
            (&["list"], &of_stream),
            (&["cat", "--json"], &of_stream),
            (&["index", "--check"], &of_stream),
            (&["row", "0"], &of_stream),
            (&["encode"], &of_stream[..1]),
        ] {
            let (status, out, errors) = told(&with_input(&[subcommand, &limits[..], given].concat(), line));
            assert_eq!(status, i32::from(refusal.is_some()), "{subcommand:?}: {out}{errors}");
            let words = format!("{out}{errors}");
            assert!(words.contains(refusal.unwrap_or("")), "{subcommand:?}: {words}");
        }
    }
    // The option that both types had is none of the command's.
    assert_eq!(told(&skiff(&["run", "--max-blob-bytes", "1", &schema, &stream])).0, 2);
}

/// A file that is not whole never has the name that was asked for.
#[test]
fn a_refused_line_leaves_the_file_as_it_was() {
    let folder = folder("output");
    let name = folder.join("rows.skf").to_str().expect("text").to_owned();
    let good = "{\"page\":1}\n";
    let encode = |lines: &str| told(&with_input(&["encode", ".", "-o", &name], lines)).0;
    assert_eq!(encode(&format!("{good}[]")), 1);
    assert_eq!(fs::read_dir(&folder).expect("a folder").count(), 0);
    assert_eq!(encode(good), 0);
    assert_eq!(fs::read(&name).expect("it is there"), [0, 0, 1, 0]);
    assert_eq!(encode(&format!("{good}{good}[]")), 1);
    assert_eq!(fs::read(&name).expect("it is there"), [0, 0, 1, 0]);
    assert_eq!(encode(&format!("{good}{good}")), 0);
    assert_eq!(fs::read(&name).expect("it is there").len(), 8);
    assert_eq!(fs::read_dir(&folder).expect("a folder").count(), 1);
}

#[test]
fn schema_there_and_back() {
    let text = accepted(&skiff(&["schema", "."]));
    assert_eq!(text, "table\n  page: uint8\n  name: optional string32\n");
    let folder = folder("schema");
    let source = file(&folder, "source.txt", format!("# a comment\n\n{text}"));
    let made = folder.join("made").to_str().expect("text").to_owned();
    assert_eq!(accepted(&skiff(&["schema", &source, "--output", &made])), "");
    for name in ["schema.rec", "schema.nam", "tables.ref", "registry.reg"] {
        let (ours, theirs) = (fs::read(format!("{made}/{name}")), fs::read(examples().join(name)));
        assert_eq!(ours.expect("written"), theirs.expect("it is there"));
    }
    // Without references and registry all records are one table's.
    let remove = |name: &str| fs::remove_file(format!("{made}/{name}")).expect("it was there");
    remove("tables.ref");
    remove("registry.reg");
    assert_eq!(accepted(&skiff(&["run", &made, "rows.skf"])), "end 5 49\n");
    remove("schema.nam");
    assert_eq!(told(&skiff(&["run", &made, "rows.skf"])).0, 2);
    assert_eq!(told(&skiff(&["schema", ".", "--output", &made])).0, 2);
}

#[test]
fn bad_texts_are_told_by_line() {
    let folder = folder("texts");
    let refused = |text: &str| {
        let (status, _, errors) = told(&skiff(&["check", &file(&folder, "bad.txt", text)]));
        assert_eq!(status, 1, "{errors}");
        errors.split_once(": line ").map(|(_, words)| words.trim_end().to_owned()).expect("a line")
    };
    assert_eq!(refused("table\n  a: unit8\n"), "2: \"unit8\" is no wire type");
    assert_eq!(refused("table\n\ta: uint8\n"), "2: only spaces stand before a node");
    assert_eq!(refused("table\n    a: int8\n  b: int8\n"), "3: it stands at no level of those before it");
    assert!(refused("tuple\n").starts_with("1: `table`"));
    assert!(refused("table x\n  a: int8\n").starts_with("1: `table`"));
    assert_eq!(refused("table\n  \"a: int8\n"), "2: a quote has no end");
    assert_eq!(refused("table\n  \"\\q\": int8\n"), "2: no such escape");
}

#[test]
fn files_that_are_none() {
    for subcommand in [&["run"][..], &["list"], &["cat", "--json"]] {
        let with = |stream: &str| told(&skiff(&[subcommand, &[".", stream]].concat()));
        let (status, out, errors) = with("no-such.skf");
        assert_eq!((status, out.as_str()), (2, ""));
        assert!(errors.starts_with("skiff: no-such.skf: "), "{errors}");
        let (status, _, errors) = with(".");
        assert_eq!((status, errors.as_str()), (2, "skiff: .: a folder in place of a file\n"));
    }
    assert_eq!(told(&skiff(&["encode", ".", "-o", "no/such/folder/x"])).0, 2);
    assert_eq!(told(&skiff(&["encode", ".", "no-such.json"])).0, 2);
}

#[test]
fn a_full_disk_is_told() {
    for words in [
        &["run", ".", "rows.skf"][..],
        &["list", ".", "rows.skf"],
        &["cat", "--json", ".", "rows.skf"],
        &["check", "."],
        &["schema", "."],
    ] {
        let full = File::options().write(true).open("/dev/full").expect("Linux has one");
        let output = Command::new(SKIFF).args(words).current_dir(examples()).stdout(full).output();
        let (status, _, errors) = told(&output.expect("it runs"));
        assert_eq!(status, 2, "{words:?}");
        assert!(errors.starts_with("skiff: the output: "), "{errors}");
    }
    let (status, _, errors) = told(&with_input(&["encode", ".", "-o", "/dev/full"], "{\"page\":1}\n"));
    assert_eq!(status, 2);
    assert!(errors.starts_with("skiff: the output: "), "{errors}");
}

/// Who reads stops reading: the command ends, and says nothing.
#[test]
fn a_cut_pipe_ends_it() {
    let long = file(&folder("pipe"), "long.skf", rows().repeat(50_000));
    for subcommand in [&["list"][..], &["cat", "--json"]] {
        let words = [subcommand, &[".", &long]].concat();
        let mut child = start(&words, Stdio::null());
        let mut first = [0; 10];
        child.stdout.take().expect("it is piped").read_exact(&mut first).expect("some lines");
        let (status, _, errors) = told(&child.wait_with_output().expect("it ends"));
        assert_eq!((status, errors.as_str()), (2, ""));
    }
}

/// A stream that comes slowly, in pieces that are no rows.
#[test]
fn a_pipe_that_grows() {
    let mut child = start(&["run", ".", "-"], Stdio::piped());
    let mut stdin = child.stdin.take().expect("it is piped");
    for piece in rows().chunks(7) {
        stdin.write_all(piece).expect("it reads");
        stdin.flush().expect("it reads");
        std::thread::sleep(std::time::Duration::from_millis(5));
    }
    drop(stdin);
    assert_eq!(accepted(&child.wait_with_output().expect("it ends")), "end 5 49\n");
}

/// A file that grows while it is read is read up to the end that is met: always after a row that was whole
/// then, or refused where it was cut.
#[test]
fn a_file_that_grows() {
    let name = file(&folder("grows"), "rows.skf", rows().repeat(1_000));
    let mut more = File::options().append(true).open(&name).expect("it is there");
    let child = start(&["run", ".", &name], Stdio::null());
    for _ in 0..200 {
        more.write_all(&rows()).expect("written");
    }
    let (status, out, errors) = told(&child.wait_with_output().expect("it ends"));
    assert_eq!((status, errors.as_str()), (0, ""));
    let bytes: u64 = out.trim_end().rsplit(' ').next().expect("bytes").parse().expect("a number");
    assert!(out.starts_with("end ") && (49_000..=58_800).contains(&bytes) && bytes % 49 == 0, "{out}");
}
