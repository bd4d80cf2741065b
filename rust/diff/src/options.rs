//! What the commands of the runs share: how many cases and by which seed, and the parts after the cases.

use std::env;

/// How many cases, of so many by default, and the seed that they are drawn by.
pub fn count_and_seed(usage: &str, by_default: u64) -> Result<(u64, u64), String> {
    let (mut count, mut seed) = (by_default, 1);
    let mut given = env::args().skip(1);
    while let Some(word) = given.next() {
        let value = given.next().ok_or(usage)?;
        let number = value.parse::<u64>().map_err(|_| format!("{word} wants a number, not {value}"))?;
        match word.as_str() {
            "--count" => count = number,
            "--seed" => seed = number,
            _ => return Err(usage.to_owned()),
        }
    }
    Ok((count, seed))
}

/// A part of a run that is no stream of cases, in words: how many calls were right, or what is wrong; none where it
/// could not be tried.
pub type Part = (&'static str, fn() -> Option<Result<u64, String>>);

/// What is wrong about the first part that is not right. A part that could not be tried is an error.
pub fn after_the_cases(parts: &[Part]) -> Result<Option<String>, String> {
    for (words, check) in parts {
        match check() {
            Some(Ok(calls)) => println!("{calls} {words}: right"),
            Some(Err(message)) => return Ok(Some(message)),
            None => return Err(format!("{words} could not be tried: there is no room for such slices")),
        }
    }
    Ok(None)
}
