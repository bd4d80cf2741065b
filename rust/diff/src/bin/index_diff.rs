//! index-diff: the index calls. The plain reading against the original's rows and, with the feature `index`, the
//! library against both, in one process.

use std::env;
use std::process::ExitCode;

use diff::indexing::describe;
use diff::indexing::run::{run, Found, Stop};
use diff::indexing::shrink::shrink;

const USAGE: &str = "\
usage: index-diff [--count N] [--seed N] [--only PART]
  makes N calls with one limit for string32 and yson32 (2,000,000 by default) and further ones with two that build,
  check and extend indexes and decode rows by them, and compares the number returned and every byte of the answer slice
  and of the slices lent. The parts are made one after the other, or one alone: cases, threads (two that ask at once),
  rows (streams of some hundred thousand), huge (slices)";

const PARTS: [&str; 4] = ["cases", "threads", "rows", "huge"];

struct Options {
    count: u64,
    seed: u64,
    only: Option<String>,
}

impl Options {
    fn has(&self, part: &str) -> bool {
        self.only.as_ref().is_none_or(|only| only == part)
    }
}

fn options() -> Result<Options, String> {
    let mut options = Options { count: 2_000_000, seed: 1, only: None };
    let mut given = env::args().skip(1);
    while let Some(word) = given.next() {
        let value = given.next().ok_or(USAGE)?;
        let number = || value.parse::<u64>().map_err(|_| format!("{word} wants a number, not {value}"));
        match word.as_str() {
            "--count" => options.count = number()?,
            "--seed" => options.seed = number()?,
            "--only" if PARTS.contains(&value.as_str()) => options.only = Some(value),
            _ => return Err(USAGE.to_owned()),
        }
    }
    Ok(options)
}

fn main() -> ExitCode {
    options().and_then(|options| compare(&options)).unwrap_or_else(|message| {
        eprintln!("index-diff: {message}");
        ExitCode::from(2)
    })
}

fn compare(options: &Options) -> Result<ExitCode, String> {
    if cfg!(feature = "double") {
        println!("THIS IS A TEST DOUBLE: nothing is said of the library");
    } else if !cfg!(feature = "index") {
        println!("THE LIBRARY IS NOT ASKED: the plain reading is compared with the original");
    }
    #[cfg(feature = "index")]
    diff::trap::set();
    println!("seed {}, node charge of the original {}", options.seed, diff::original::node_charge());
    if let Some(only) = &options.only {
        println!("ONLY {only}: the other parts are left out");
    }
    let mut last_line = String::new();
    if options.has("cases") {
        match run(options.seed, options.count) {
            Ok(tally) => last_line = format!("{tally} "),
            Err(Stop::Unmet(unmet)) => {
                return Err(format!("all answers were right, but never met: {}", unmet.join(", ")));
            }
            Err(Stop::Difference(found)) => {
                report(&found);
                return Ok(ExitCode::from(1));
            }
        }
    }
    #[cfg(feature = "index")]
    if let Some(message) = after_the_cases(options)? {
        println!("DIFFERENCE: {message}");
        return Ok(ExitCode::from(1));
    }
    println!("{last_line}0 differences");
    Ok(ExitCode::SUCCESS)
}

/// The parts of a run that are no stream of cases: what is wrong, if something is.
#[cfg(feature = "index")]
fn after_the_cases(options: &Options) -> Result<Option<String>, String> {
    use diff::indexing::{huge, long, threads};
    type Check = fn() -> Option<Result<u64, String>>;
    let parts: [(&str, &str, Check); 3] = [
        ("threads", "calls by two threads at once", || Some(threads::check())),
        ("rows", "calls about streams of some hundred thousand rows", || Some(long::check())),
        ("huge", "calls with slices of 4,294,967,295 bytes and one more", huge::check),
    ];
    for (name, words, check) in parts.into_iter().filter(|(name, ..)| options.has(name)) {
        match check().ok_or_else(|| format!("{name} could not be tried: there is no room for such slices"))? {
            Ok(calls) => println!("{calls} {words}: right"),
            Err(message) => return Ok(Some(message)),
        }
    }
    Ok(None)
}

/// Shrinks a differing case and prints it.
fn report(found: &Found) {
    println!("DIFFERENCE in a case of {} bytes; looking for a smaller one", found.case.bytes());
    let smallest = shrink(found.case.clone(), &mut |case| found.why(case).is_some());
    println!("smallest case found: {} bytes", smallest.bytes());
    let why = found.why(&smallest);
    println!("{}", why.as_deref().unwrap_or("it is answered rightly when asked again"));
    println!("{}", describe(&smallest));
}
