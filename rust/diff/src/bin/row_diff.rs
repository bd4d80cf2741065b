//! row-diff: the library's reading calls against the plain reading and the original, in one process.

use std::process::ExitCode;
use std::time::{Duration, Instant};
use std::{env, fs};

use diff::case::Case;
use diff::in_process::{huge, long, run, threads, Asked, Stop, Verdict};
use diff::show::describe;
use diff::shrink::shrink;
use diff::trap;

const USAGE: &str = "\
usage: row-diff [--count N] [--seed N] [--save FILE] [--only PART]
  puts N cases with one limit for string32 and yson32 (5,000,000 by default) and further ones with two to skiff_skip
  and skiff_run, more of both to skiff_decode, and every record that was decoded to skiff_value and the row view, and
  compares the number returned and every byte of the answer slice and of the slices lent. --save writes the smallest
  differing case found, for schema-diff show. The parts are made one after the other, or one alone: cases, threads
  (two that ask at once), rows (some million of them), huge (slices)";

/// A part of a run that is no stream of cases: how many of what were right, or what is wrong; none where it could not
/// be tried.
struct Part {
    name: &'static str,
    words: &'static str,
    check: fn() -> Option<Result<u64, String>>,
}

const AFTER_THE_CASES: [Part; 3] = [
    Part { name: "threads", words: "calls by two threads at once", check: || Some(threads::check()) },
    Part { name: "rows", words: "rows run over in streams of some million", check: || Some(long::check()) },
    Part { name: "huge", words: "calls with slices of 4,294,967,295 bytes and one more", check: huge::check },
];

struct Options {
    count: u64,
    seed: u64,
    save: Option<String>,
    only: Option<String>,
}

impl Options {
    fn has(&self, part: &str) -> bool {
        self.only.as_ref().is_none_or(|only| only == part)
    }
}

fn options() -> Result<Options, String> {
    let mut options = Options { count: 5_000_000, seed: 1, save: None, only: None };
    let mut given = env::args().skip(1);
    while let Some(word) = given.next() {
        let value = given.next().ok_or(USAGE)?;
        let number = || value.parse::<u64>().map_err(|_| format!("{word} wants a number, not {value}"));
        match word.as_str() {
            "--count" => options.count = number()?,
            "--seed" => options.seed = number()?,
            "--save" => options.save = Some(value),
            "--only" if value == "cases" || AFTER_THE_CASES.iter().any(|part| part.name == value) => {
                options.only = Some(value);
            }
            _ => return Err(USAGE.to_owned()),
        }
    }
    Ok(options)
}

fn main() -> ExitCode {
    options().and_then(|options| compare(&options)).unwrap_or_else(|message| {
        eprintln!("row-diff: {message}");
        ExitCode::from(2)
    })
}

fn compare(options: &Options) -> Result<ExitCode, String> {
    trap::set();
    if cfg!(feature = "double") {
        println!("THIS IS A TEST DOUBLE: nothing is said of the library");
    }
    println!("seed {}, node charge of the original {}", options.seed, diff::original::node_charge());
    if let Some(only) = &options.only {
        println!("ONLY {only}: the other parts are left out");
    }
    let mut last_line = String::new();
    if options.has("cases") {
        match cases(options)? {
            Some(tallies) => last_line = format!("{tallies} "),
            None => return Ok(ExitCode::from(1)),
        }
    }
    for Part { name, words, check } in AFTER_THE_CASES.iter().filter(|part| options.has(part.name)) {
        match check().ok_or_else(|| format!("{name} could not be tried: there is no room for such slices"))? {
            Ok(count) => println!("{count} {words}: right"),
            Err(message) => {
                println!("DIFFERENCE: {message}");
                return Ok(ExitCode::from(1));
            }
        }
    }
    println!("{last_line}0 differences");
    Ok(ExitCode::SUCCESS)
}

/// The cases, fixed and random: how many there were; none where one differs.
fn cases(options: &Options) -> Result<Option<String>, String> {
    match run(options.seed, options.count) {
        Ok(tallies) => return Ok(Some(tallies.to_string())),
        Err(Stop::Unmet(unmet)) => {
            return Err(format!("all answers were right, but never met: {}", unmet.join(", ")));
        }
        Err(Stop::Misread(name)) => {
            println!("DIFFERENCE: skiff_parse takes {:?} for another type", String::from_utf8_lossy(&name));
        }
        Err(Stop::Difference(asked)) => report(options, *asked)?,
    }
    Ok(None)
}

/// A case of so many bytes is not made smaller for longer than this.
const LARGE: usize = 8_192;
const PATIENCE: Duration = Duration::from_secs(20);

/// Shrinks a differing case, prints it, and keeps it where that was asked for.
fn report(options: &Options, asked: Asked) -> Result<(), String> {
    println!("DIFFERENCE in a case of {} bytes; looking for a smaller one", asked.case.bytes());
    let until = Instant::now() + PATIENCE;
    let differs = |case: &Case| {
        let late = case.bytes() > LARGE && Instant::now() > until;
        !late && !Verdict::of(&asked.about(case.clone())).is_good()
    };
    if !differs(&asked.case) {
        println!("it is answered rightly when asked again, so the library keeps something between calls");
    }
    let smallest = shrink(asked.case.clone(), &mut |cases| cases.iter().map(differs).collect());
    let asked = asked.about(smallest);
    println!("smallest case found: {} bytes, answer slice of {}", asked.case.bytes(), asked.answer_size);
    let verdict = Verdict::of(&asked);
    println!("{}", describe(&asked.case));
    println!("  library:  {}", verdict.got.in_words());
    println!("  plain:    {}", verdict.wanted.in_words());
    if !verdict.as_skipped {
        println!("  SKIP IS ANSWERED OTHERWISE THAN DECODE");
    }
    if !verdict.as_checked {
        println!("  THE CHECK OF THE FORMAT IS ANSWERED OTHERWISE");
    }
    if verdict.queried.is_none() {
        println!("  THE VALUE OF A RECORD, OR WHAT THE ROW VIEW TELLS OF IT, IS ANSWERED OTHERWISE");
    }
    if !verdict.stayed {
        println!("  A CALL WRITES TO A SLICE THAT IT WAS TO READ");
    }
    if !verdict.expected.is_one() {
        println!("  THE ORIGINAL DIFFERS FROM THE PLAIN READING");
    }
    match verdict.expected.original {
        Some(said) => println!("  original: {said}"),
        None => println!("  original: outside its domain"),
    }
    if let Some(file) = &options.save {
        let mut bytes = Vec::new();
        asked.case.write_to(&mut bytes);
        fs::write(file, bytes).map_err(|error| format!("{file}: {error}"))?;
        println!("  saved as {file}");
    }
    Ok(())
}
