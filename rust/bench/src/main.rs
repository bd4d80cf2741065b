//! bench: what skiff_run costs beside a driver over the original's skip_row, skiff_decode beside its
//! next_row and, with the feature `encode`, skiff_encode beside its write, on the same bytes; with the feature `index`,
//! what the index calls cost beside those that do without one; and what the check of a format costs by its records and
//! by its names.

#[cfg(feature = "index")]
mod indexing;
mod ledger;
mod names;
mod same;
mod schemas;
mod timing;
#[cfg(feature = "encode")]
mod writing;

use std::process::ExitCode;

use schemas::{ALL, LEDGER};
use timing::{
    best_of, best_of_each, check_library, check_original, decode_bare, decode_library, decode_original,
    original, run_library, run_original,
};

const USAGE: &str = "\
usage: bench [rows|growth|decode|ledger|encode|index|format|names] [--runs N] [--rows N]
  rows    each schema, 1,000,000 rows of A and N (300,000) of the others
  growth  10,000 to 1,000,000 rows of schema A
  decode  1,000,000 rows of schema A decoded one by one
  ledger  1,000,000 rows of wide integers alone decoded one by one and, with the feature `encode`, encoded, beside
          copying the same bytes
  encode  1,000,000 rows of schema A encoded one by one, and rows of 1,000 to 1,000,000 records; only with
          the feature of that name
  index   an index of 100,000 rows of schema A built and checked, and rows decoded by it; only with the feature of
          that name
  format  the check of formats of 1,024 to 131,072 records
  names   the check of schema A with column names of 1, 16 and 255 bytes, of ASCII and of characters of two bytes, and
          N (300,000) of its rows decoded one by one; and of a table whose columns share one name
  all of them without a word. Times are the best of N (15) runs, in processor time";

const CLIENT_ROWS: u64 = 1_000_000;

struct Options {
    words: Vec<String>,
    runs: u32,
    rows: u64,
}

fn options() -> Option<Options> {
    let mut options = Options { words: Vec::new(), runs: 15, rows: 300_000 };
    let mut given = std::env::args().skip(1);
    while let Some(word) = given.next() {
        match word.as_str() {
            "--runs" => options.runs = given.next()?.parse().ok()?,
            "--rows" => options.rows = given.next()?.parse().ok()?,
            "rows" | "growth" | "decode" | "ledger" | "format" | "names" => options.words.push(word),
            "encode" if cfg!(feature = "encode") => options.words.push(word),
            "index" if cfg!(feature = "index") => options.words.push(word),
            _ => return None,
        }
    }
    Some(options)
}

fn main() -> ExitCode {
    let Some(options) = options() else {
        eprintln!("{USAGE}");
        return ExitCode::from(2);
    };
    if cfg!(feature = "double") {
        println!("THIS IS A TEST DOUBLE: its times say nothing of the library");
    }
    let wants = |word: &str| options.words.is_empty() || options.words.iter().any(|given| given == word);
    println!("best of {} runs, processor time", options.runs);
    if wants("rows") {
        rows(&options);
    }
    if wants("growth") {
        growth(&options);
    }
    if wants("decode") {
        decode(&options);
    }
    if wants("ledger") {
        ledger(&options);
    }
    #[cfg(feature = "encode")]
    if wants("encode") {
        encode(&options);
    }
    #[cfg(feature = "index")]
    if wants("index") {
        index(&options);
    }
    if wants("format") {
        format(&options);
    }
    if wants("names") {
        names_checked(&options);
    }
    ExitCode::SUCCESS
}

/// Nanoseconds a row of both sides over one stream.
fn per_row(options: &Options, schema: usize, rows: u64) -> (f64, f64, usize) {
    let case = ALL[schema].stream(rows);
    let format = original(&case);
    let original = || run_original(&case, &format, rows);
    let best = best_of(options.runs, original, || run_library(&case, rows));
    (best.original / rows as f64, best.library / rows as f64, case.input.len())
}

fn rows(options: &Options) {
    println!("\n{:46} {:>8} {:>9} {:>9} {:>6}", "ns/row", "bytes", "original", "library", "ratio");
    for (index, schema) in ALL.iter().enumerate() {
        let rows = if index == 0 { CLIENT_ROWS } else { options.rows };
        let (original, library, bytes) = per_row(options, index, rows);
        let (name, length, ratio) = (schema.name, bytes as f64 / rows as f64, library / original);
        println!("{name:46} {length:8.1} {original:9.1} {library:9.1} {ratio:6.2}");
    }
}

fn growth(options: &Options) {
    println!("\n{:46} {:>8} {:>9} {:>9} {:>6}", "schema A, ns/row", "rows", "original", "library", "ratio");
    for rows in [10_000, 100_000, 1_000_000] {
        let (original, library, _) = per_row(options, 0, rows);
        println!("{:46} {rows:8} {original:9.1} {library:9.1} {:6.2}", "", library / original);
    }
}

/// Every call of skiff_decode checks the format, as every call of skiff_skip does, so a row's time has one
/// check in it. What the check takes alone stands beside it.
fn decode(options: &Options) {
    let case = ALL[0].stream(CLIENT_ROWS);
    let format = original(&case);
    let room = same::check(&case, &format, CLIENT_ROWS);
    let original = || decode_original(&case, &format, CLIENT_ROWS);
    let check = best_of(options.runs, || 0.0, || check_library(&case, CLIENT_ROWS as u32)).library;
    println!(
        "\n{:46} {:>8} {:>9} {:>9} {:>6} {:>16}",
        "schema A decoded, ns/row", "rows", "original", "library", "ratio", "of it the check"
    );
    let line = |name: &str, best: timing::Best| {
        let (original, library) = (best.original / CLIENT_ROWS as f64, best.library / CLIENT_ROWS as f64);
        let ratio = library / original;
        println!("{name:46} {CLIENT_ROWS:8} {original:9.1} {library:9.1} {ratio:6.2} {check:16.1}");
    };
    line("skiff_decode", best_of(options.runs, original, || decode_bare(&case, room, CLIENT_ROWS)));
    line("Format::next_row", best_of(options.runs, original, || decode_library(&case, room, CLIENT_ROWS)));
    println!("(the library checks the format for every row, the original once, before its clock starts;");
    println!(" the original allocates a tree for every row, the library writes to slices that it is lent)");
}

/// All lines take turns, so that a slow moment of the machine meets them all.
fn ledger(options: &Options) {
    let case = LEDGER.stream(CLIENT_ROWS);
    let format = original(&case);
    let room = same::check(&case, &format, CLIENT_ROWS);
    let check = best_of_each(options.runs, [&mut || check_library(&case, CLIENT_ROWS as u32)]);
    let best = best_of_each(
        options.runs,
        [
            &mut || decode_original(&case, &format, CLIENT_ROWS),
            &mut || decode_bare(&case, room, CLIENT_ROWS),
            &mut || decode_library(&case, room, CLIENT_ROWS),
            &mut || ledger::copy_out(&case, ledger::each_column),
            &mut || ledger::copy_out(&case, ledger::all_columns),
        ],
    );
    let decoding = ["the original's next_row", "skiff_decode", "Format::next_row"];
    ledger_lines("decoded", decoding, best);
    println!("(of a decode call's time {:.1} ns are the check of the format)", check[0]);
    #[cfg(feature = "encode")]
    {
        let standing = writing::Standing::of(&case, &format, room);
        let best = best_of_each(
            options.runs,
            [
                &mut || writing::encode_original(&case, &format, &standing),
                &mut || writing::encode_bare(&case, &standing),
                &mut || writing::encode_library(&case, &standing),
                &mut || ledger::copy_back(&case, standing.payload(), ledger::each_column),
                &mut || ledger::copy_back(&case, standing.payload(), ledger::all_columns),
            ],
        );
        let encoding = ["the original's write", "skiff_encode", "SchemaBlock::append"];
        ledger_lines("encoded", encoding, best);
    }
}

/// The three calls, then the two copies, each beside the original and beside a copy of each column.
fn ledger_lines(done: &str, calls: [&str; 3], best: [f64; 5]) {
    let title = format!("{} {done}, ns/row", LEDGER.name);
    println!("\n{title:46} {:>9} {:>13} {:>11}", "time", "by original", "by memcpy");
    let copies = ["memcpy of each column", "memcpy of all columns of a row"];
    for (name, time) in calls.into_iter().chain(copies).zip(best) {
        let (by_original, by_copy) = (time / best[0], time / best[3]);
        println!("{name:46} {:9.1} {by_original:13.2} {by_copy:11.2}", time / CLIENT_ROWS as f64);
    }
}

/// Every call of skiff_encode checks the schema and the value table, as part of a row's time. How much of
/// it the schema's check is, the table of formats says.
#[cfg(feature = "encode")]
fn encode(options: &Options) {
    let case = ALL[0].stream(CLIENT_ROWS);
    let format = original(&case);
    let room = same::check(&case, &format, CLIENT_ROWS);
    let standing = writing::Standing::of(&case, &format, room);
    let original = || writing::encode_original(&case, &format, &standing);
    println!(
        "\n{:46} {:>8} {:>9} {:>9} {:>6}",
        "schema A encoded, ns/row", "rows", "original", "library", "ratio"
    );
    let line = |name: &str, best: timing::Best| {
        let (original, library) = (best.original / CLIENT_ROWS as f64, best.library / CLIENT_ROWS as f64);
        println!("{name:46} {CLIENT_ROWS:8} {original:9.1} {library:9.1} {:6.2}", library / original);
    };
    line("skiff_encode", best_of(options.runs, original, || writing::encode_bare(&case, &standing)));
    line(
        "SchemaBlock::append",
        best_of(options.runs, original, || writing::encode_library(&case, &standing)),
    );
    println!(
        "\n{:46} {:>8} {:>12} {:>10}",
        "one row, by its value records", "records", "encode, us", "ns/record"
    );
    for records in [1_000, 10_000, 100_000, 1_000_000] {
        let mut long = writing::Long::new(records);
        let best = best_of(options.runs, || 0.0, || long.encode()).library;
        println!("{:46} {records:8} {:12.1} {:10.2}", "", best / 1_000.0, best / records as f64);
    }
}

/// Each index call beside the library's own calls that do without one, in turns. A row by its record has a check of the
/// format in it, as every row that is skipped or decoded has.
#[cfg(feature = "index")]
fn index(options: &Options) {
    const ROWS: u64 = 100_000;
    const LOOKUPS: usize = 1_000_000;
    // Row 40,000, as people count.
    const LOOKED_UP: usize = 39_999;
    let case = ALL[0].stream(ROWS);
    let room = same::check(&case, &original(&case), ROWS);
    let indexed = indexing::Indexed::new(case, room);
    println!("\n{:46} {:>12} {:>12} {:>8}", "schema A, 100,000 rows", "without", "index", "ratio");
    let line = |name: &str, best: timing::Best, rows: f64, digits: usize| {
        let (without, with) = (best.original / rows, best.library / rows);
        println!("{name:46} {without:12.digits$} {with:12.digits$} {:8.5}", with / without);
    };
    let rows = ROWS as f64;
    line(
        "build beside the run, ns/row",
        best_of(options.runs, || indexed.run(), || indexed.build()),
        rows,
        1,
    );
    line(
        "check beside the run, ns/row",
        best_of(options.runs, || indexed.run(), || indexed.check()),
        rows,
        1,
    );
    let skipping = || indexed.row_by_skipping(LOOKED_UP);
    let by_index = || indexed.row_by_index(LOOKED_UP);
    line("row 40,000 beside skipping to it, ns", best_of(options.runs, skipping, by_index), 1.0, 0);
    for (name, numbers) in [
        ("a million rows in order beside decode, ns/row", indexed.in_order(LOOKUPS)),
        ("a million rows anywhere beside decode, ns/row", indexed.anywhere(LOOKUPS)),
    ] {
        let by_position = || indexed.rows_by_position(&numbers);
        let best = best_of(options.runs, by_position, || indexed.rows_by_index(&numbers));
        line(name, best, LOOKUPS as f64, 1);
    }
    println!(
        "(the time of a single row has the clock's own in it; decode is given positions of 8 bytes each;"
    );
    println!(" in order a row and its record lie beside the ones before, anywhere they do not)");
}

/// The growth is the time a record takes here, over what it took in the smallest block.
fn format(options: &Options) {
    println!(
        "\n{:>8} {:>12} {:>10} {:>7} {:>22}",
        "records", "check, us", "ns/record", "growth", "original, ns/record"
    );
    let mut smallest = None;
    for records in diff::bench::RECORDS {
        let case = diff::bench::case(records);
        let format = original(&case);
        let repetitions = (131_072 / records) as u32;
        let original = || check_original(&format, repetitions);
        let best = best_of(options.runs, original, || check_library(&case, repetitions));
        let (library, tree) = (best.library / records as f64, best.original / records as f64);
        let growth = library / *smallest.get_or_insert(library);
        println!("{records:8} {:12.1} {library:10.2} {growth:7.2} {tree:22.2}", best.library / 1_000.0);
    }
    println!("(the original checks trees that stand already; the library checks the flat tables themselves)");
}

/// A call's check of the format and a row's decoding, the same rows under each pair of names.
fn names_checked(options: &Options) {
    const CHECKS: u32 = 100_000;
    println!("\n{:46} {:>10} {:>16}", "schema A, by the names of its columns", "check, ns", "decode, ns/row");
    for (bytes, letters) in names::NAMES {
        let case = names::stream(bytes, letters, options.rows);
        let room = same::check(&case, &original(&case), options.rows);
        let [check, decode] = best_of_each(
            options.runs,
            [&mut || names::check(&case, CHECKS), &mut || decode_bare(&case, room, options.rows)],
        );
        let title = format!("{bytes:3} bytes of {}", letters.in_words());
        println!("{title:46} {check:10.1} {:16.1}", decode / options.rows as f64);
    }
    println!(
        "(each decode call checks the format; with an older archive the same lines say what it took there)"
    );
    println!("\n{:46} {:>10} {:>16}", "columns that share one name", "check, us", "ns/byte of names");
    for (columns, bytes, letters) in names::SHARED {
        let case = names::shared(columns, bytes, letters);
        let [check] = best_of_each(options.runs, [&mut || names::check(&case, 100)]);
        let named = f64::from(columns) * bytes as f64;
        let title = format!("{columns:5}, {bytes:5} bytes of {}", letters.in_words());
        println!("{title:46} {:10.1} {:16.3}", check / 1_000.0, check / named);
    }
    println!("(a name is judged for each column that has it, unless the whole store is seen to be ASCII)");
}
