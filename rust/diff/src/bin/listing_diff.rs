//! listing-diff: the listing program against the plain reading, a process for each delivery.

use std::process::ExitCode;
use std::{env, fs};

use diff::listing::{report, run, Stop};
use diff::options::count_and_seed;
use diff::program::Program;

const USAGE: &str = "\
usage: listing-diff [--count N] [--seed N]
  has N deliveries (100,000 by default) listed by the program that SKIFF_LISTING names, by way of SKIFF_RUNNER if
  that is set, and compares every byte that it prints";

/// By its whole path, for it is run in other folders.
fn program() -> Result<Program, String> {
    let named = env::var("SKIFF_LISTING").map_err(|_| format!("no program was named\n{USAGE}"))?;
    let path = fs::canonicalize(&named).map_err(|error| format!("{named}: {error}"))?;
    let runner = env::var("SKIFF_RUNNER").unwrap_or_default();
    let path = path.to_str().ok_or("the program's path is not UTF-8")?.to_owned();
    Ok(Program { runner: runner.split_whitespace().map(str::to_owned).collect(), path })
}

fn compare() -> Result<ExitCode, String> {
    let (count, seed) = count_and_seed(USAGE, 100_000)?;
    let program = program()?;
    println!("seed {seed}");
    match run(&program, seed, count) {
        Ok(tally) => {
            println!("{tally} 0 differences");
            Ok(ExitCode::SUCCESS)
        }
        Err(Stop::Broken(message)) => Err(message),
        Err(Stop::Unmet(unmet)) => {
            Err(format!("all listings were right, but never met: {}", unmet.join(", ")))
        }
        Err(Stop::Difference(found)) => {
            println!("DIFFERENCE; looking for a smaller one");
            println!("{}", report(&program, *found).map_err(|error| error.to_string())?);
            Ok(ExitCode::from(1))
        }
    }
}

fn main() -> ExitCode {
    compare().unwrap_or_else(|message| {
        eprintln!("listing-diff: {message}");
        ExitCode::from(2)
    })
}
