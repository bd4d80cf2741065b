//! write-diff: the writing calls. The plain reading against the original and, with the feature `encode`,
//! the library against both, in one process.

use std::process::ExitCode;

use diff::options::count_and_seed;
use diff::writing::describe;
use diff::writing::run::{run, Found, Stop};
use diff::writing::shrink::shrink;

const USAGE: &str = "\
usage: write-diff [--count N] [--seed N]
  makes N encoding calls with one limit for string32 and yson32 (5,000,000 by default), further ones with two, and a
  check of each value table, and compares every byte of the output; each accepted row goes through both round trips";

#[cfg(feature = "encode")]
const PARTS: [diff::options::Part; 2] = [
    ("calls by two threads at once", || Some(diff::writing::threads::check())),
    ("calls with slices of 4,294,967,295 bytes and one more", diff::writing::huge::check),
];

fn main() -> ExitCode {
    compare().unwrap_or_else(|message| {
        eprintln!("write-diff: {message}");
        ExitCode::from(2)
    })
}

fn compare() -> Result<ExitCode, String> {
    let (count, seed) = count_and_seed(USAGE, 5_000_000)?;
    if cfg!(feature = "double") {
        println!("THIS IS A TEST DOUBLE: nothing is said of the library");
    } else if !cfg!(feature = "encode") {
        println!("THE LIBRARY IS NOT ASKED: the plain reading is compared with the original");
    }
    #[cfg(feature = "encode")]
    diff::trap::set();
    println!("seed {seed}");
    match run(seed, count) {
        Ok(tally) => {
            #[cfg(feature = "encode")]
            if let Some(message) = diff::options::after_the_cases(&PARTS)? {
                println!("DIFFERENCE: {message}");
                return Ok(ExitCode::from(1));
            }
            println!("{tally} 0 differences");
            Ok(ExitCode::SUCCESS)
        }
        Err(Stop::Unmet(unmet)) => {
            Err(format!("all answers were right, but never met: {}", unmet.join(", ")))
        }
        Err(Stop::Difference(found)) => {
            report(&found);
            Ok(ExitCode::from(1))
        }
    }
}

/// Shrinks a differing case and prints it.
fn report(found: &Found) {
    println!("DIFFERENCE in a case of {} bytes; looking for a smaller one", found.case.bytes());
    let smallest = shrink(found.case.clone(), &mut |case| found.why(case).is_some());
    println!("smallest case found: {} bytes", smallest.bytes());
    let why = found.why(&smallest);
    println!("{}", why.as_deref().unwrap_or("it is answered rightly when asked again"));
    println!("{}", describe(&smallest));
}
