//! integer-diff: the library's text of an integer against the plain reading, in one process.

use std::process::ExitCode;

use diff::integers::run::{run, Found, Stop};
use diff::integers::shrink::shrink;
use diff::integers::{describe, huge, threads};
use diff::options::{after_the_cases, count_and_seed, Part};

const USAGE: &str = "\
usage: integer-diff [--count N] [--seed N]
  has the texts of all integers of 1 and 2 bytes, of the edges of every width up to 32 bytes, of bytes that are no
  integer, and of N random ones (3,000,000 by default: a third of 16 bytes, a third of 32, a third of any width) written
  by skiff_integer_text, each with room enough, with just enough, with a byte less, with none, and with an answer slice
  that is too short, and compares the number returned and every byte of text and answer";

const PARTS: [Part; 2] = [
    ("calls by two threads at once", || Some(threads::check())),
    ("calls with slices of 4,294,967,295 bytes and one more", huge::check),
];

fn main() -> ExitCode {
    compare().unwrap_or_else(|message| {
        eprintln!("integer-diff: {message}");
        ExitCode::from(2)
    })
}

fn compare() -> Result<ExitCode, String> {
    let (count, seed) = count_and_seed(USAGE, 3_000_000)?;
    diff::trap::set();
    if cfg!(feature = "double") {
        println!("THIS IS A TEST DOUBLE: nothing is said of the library");
    }
    println!("seed {seed}");
    let tally = match run(seed, count) {
        Ok(tally) => tally,
        Err(Stop::Unmet(unmet)) => {
            return Err(format!("all answers were right, but never met: {}", unmet.join(", ")));
        }
        Err(Stop::Difference(found)) => {
            report(&found);
            return Ok(ExitCode::from(1));
        }
    };
    if let Some(message) = after_the_cases(&PARTS)? {
        println!("DIFFERENCE: {message}");
        return Ok(ExitCode::from(1));
    }
    println!("{tally} 0 differences");
    Ok(ExitCode::SUCCESS)
}

/// Shrinks a differing case and prints it.
fn report(found: &Found) {
    println!("DIFFERENCE in an integer of {} bytes; looking for a smaller one", found.case.bytes.len());
    let smallest = shrink(found.case.clone(), |case| found.why(case).is_some());
    println!("smallest case found: {} bytes", smallest.bytes.len());
    let why = found.why(&smallest);
    println!("{}", why.as_deref().unwrap_or("it is answered rightly when asked again"));
    println!("{}", describe(&smallest));
}
