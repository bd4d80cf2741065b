//! name-diff: which strings are names and when they are judged, by the library against the plain reading and the
//! standard library, in one process.

use std::env;
use std::process::ExitCode;

use diff::names::shrink::shrink;
use diff::names::{describe, formats, huge, strings, threads};
use diff::options::{after_the_cases, Part};
use diff::{show, shrink as of_formats};

const USAGE: &str = "\
usage: name-diff [--count N] [--formats N] [--seed N] [--only PART]
  has all strings of up to 3 bytes, those at the edges of UTF-8 and N random ones of 4 to 12 bytes (50,000,000 by
  default) judged by skiff_check_name, and N formats and encoders' blocks (1,000,000 by default), half of them with
  names that are no text, by skiff_check_format and skiff_check_encoder_schema, and compares the number returned and
  every byte of the answer slice. The parts are made one after the other, or one alone: names, formats, threads (two
  that ask at once), huge (slices)";

const THREADS: Part = ("calls by two threads at once", || Some(threads::check()));
const HUGE: Part = ("calls with names and stores of 4,294,967,295 bytes and one more", huge::check);

const PARTS: [&str; 4] = ["names", "formats", "threads", "huge"];

struct Options {
    count: u64,
    formats: u64,
    seed: u64,
    only: Option<String>,
}

impl Options {
    fn has(&self, part: &str) -> bool {
        self.only.as_ref().is_none_or(|only| only == part)
    }
}

fn options() -> Result<Options, String> {
    let mut options = Options { count: 50_000_000, formats: 1_000_000, seed: 1, only: None };
    let mut given = env::args().skip(1);
    while let Some(word) = given.next() {
        let value = given.next().ok_or(USAGE)?;
        let number = || value.parse::<u64>().map_err(|_| format!("{word} wants a number, not {value}"));
        match word.as_str() {
            "--count" => options.count = number()?,
            "--formats" => options.formats = number()?,
            "--seed" => options.seed = number()?,
            "--only" if PARTS.contains(&value.as_str()) => options.only = Some(value),
            _ => return Err(USAGE.to_owned()),
        }
    }
    Ok(options)
}

fn main() -> ExitCode {
    options().and_then(|options| compare(&options)).unwrap_or_else(|message| {
        eprintln!("name-diff: {message}");
        ExitCode::from(2)
    })
}

fn compare(options: &Options) -> Result<ExitCode, String> {
    diff::trap::set();
    if cfg!(feature = "double") {
        println!("THIS IS A TEST DOUBLE: nothing is said of the library");
    }
    println!("seed {}", options.seed);
    if let Some(only) = &options.only {
        println!("ONLY {only}: the other parts are left out");
    }
    let mut last_line = String::new();
    if options.has("names") {
        match strings::run(options.seed, options.count) {
            Ok(tally) => last_line.push_str(&format!("{tally} ")),
            Err(found) => return Ok(report_name(&found)),
        }
    }
    if options.has("formats") {
        match formats::run(options.seed, options.formats) {
            Ok(tally) => last_line.push_str(&format!("{tally} ")),
            Err(formats::Stop::Difference(found)) => return Ok(report_format(&found)),
            Err(formats::Stop::Unmet(unmet)) => {
                return Err(format!("all answers were right, but never met: {}", unmet.join(", ")));
            }
        }
    }
    let parts: Vec<Part> = [("threads", THREADS), ("huge", HUGE)]
        .into_iter()
        .filter(|(name, _)| options.has(name))
        .map(|(_, part)| part)
        .collect();
    if let Some(message) = after_the_cases(&parts)? {
        println!("DIFFERENCE: {message}");
        return Ok(ExitCode::from(1));
    }
    println!("{last_line}{} 0 differences", diff::fence::counted());
    Ok(ExitCode::SUCCESS)
}

/// Shrinks a differing string and prints it.
fn report_name(found: &strings::Found) -> ExitCode {
    println!("DIFFERENCE in a name of {} bytes; looking for a smaller one", found.case.name.len());
    let smallest = shrink(found.case.clone(), |case| found.why(case).is_some());
    println!("smallest case found: {} bytes", smallest.name.len());
    let why = found.why(&smallest);
    println!("{}", why.as_deref().unwrap_or("it is answered rightly when asked again"));
    println!("{}", describe(&smallest));
    ExitCode::from(1)
}

/// Shrinks a differing format and prints it.
fn report_format(found: &formats::Found) -> ExitCode {
    println!("DIFFERENCE in a case of {} bytes; looking for a smaller one", found.case.bytes());
    let differs = |case: &diff::case::Case| found.why(case).is_some();
    let smallest = of_formats::shrink(found.case.clone(), &mut |cases| cases.iter().map(differs).collect());
    println!("smallest case found: {} bytes, answer slice of {}", smallest.bytes(), found.answer_size);
    let why = found.why(&smallest);
    println!("{}", why.as_deref().unwrap_or("it is answered rightly when asked again"));
    println!("{}", show::describe(&smallest));
    ExitCode::from(1)
}
