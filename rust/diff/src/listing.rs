//! The listing program against the plain reading: a process for each delivery, run in a folder of its three
//! files, and what it prints compared byte for byte.

use std::collections::BTreeMap;
use std::path::PathBuf;
use std::process::Output;
use std::{env, fmt, fs, io, process};

use plain::listing::{kind_name, listing, Delivery, Last, Listing};
use plain::tables::{record_count, Block};

use crate::case::{op, Case};
use crate::generate::rows::usual;
use crate::generate::{deliveries, Kind};
use crate::plan::inline;
use crate::program::Program;
use crate::rng::Rng;

/// A folder that deliveries are laid in, one after another; it goes when this does.
struct Folder(PathBuf);

impl Folder {
    fn new() -> io::Result<Self> {
        let path = env::temp_dir().join(format!("listing-diff-{}", process::id()));
        fs::create_dir(&path)?;
        Ok(Self(path))
    }

    fn lay(&self, delivery: &Delivery) -> io::Result<()> {
        let Delivery { schema, names, stream } = delivery;
        for (name, file) in [("schema.rec", schema), ("schema.nam", names), ("rows.skf", stream)] {
            let path = self.0.join(name);
            match file {
                Some(bytes) => fs::write(path, bytes)?,
                None if path.exists() => fs::remove_file(path)?,
                None => {}
            }
        }
        Ok(())
    }
}

impl Drop for Folder {
    fn drop(&mut self) {
        // What can't be removed is left where temporary files are.
        drop(fs::remove_dir_all(&self.0));
    }
}

/// How many deliveries there were, by kind and by answer, and what was listed of them.
#[derive(Debug, Default)]
pub struct Tally {
    pub deliveries: u64,
    pub rows: u64,
    pub bytes: u64,
    pub kinds: BTreeMap<Kind, u64>,
    /// Refusals by number; 0 is an end.
    pub numbers: BTreeMap<u64, u64>,
    /// Lines by the kind of their value.
    pub lines: [u64; 18],
}

impl Tally {
    fn add(&mut self, kind: Kind, listed: &Listing) {
        self.deliveries += 1;
        self.rows += listed.rows;
        self.bytes += listed.text.len() as u64;
        *self.kinds.entry(kind).or_default() += 1;
        let number = match listed.last {
            Last::End { .. } => 0,
            Last::Refused(refusal) => refusal.number,
        };
        *self.numbers.entry(number).or_default() += 1;
        self.lines.iter_mut().zip(listed.kinds).for_each(|(count, more)| *count += more);
    }

    /// What every run has to meet: an end, each refusal that a delivery can have, a value of each kind.
    /// No row has more payload than the stream has bytes, so 20 is not among them.
    fn unmet(&self) -> Vec<String> {
        let numbers = [0, 1, 2, 3, 4, 5, 8, 10, 11, 12, 13, 14, 17, 19, 33];
        let numbers = numbers.iter().filter(|number| !self.numbers.contains_key(number));
        let kinds = (0..18).filter(|kind| self.lines[usize::from(*kind)] == 0);
        numbers
            .map(|number| format!("answer {number}"))
            .chain(kinds.map(|kind| format!("a {}", kind_name(kind))))
            .collect()
    }
}

impl fmt::Display for Tally {
    fn fmt(&self, out: &mut fmt::Formatter<'_>) -> fmt::Result {
        write!(out, "{} deliveries; by kind:", self.deliveries)?;
        for (kind, count) in &self.kinds {
            write!(out, " {kind} {count},")?;
        }
        write!(out, " by last line:")?;
        for (number, count) in &self.numbers {
            match number {
                0 => write!(out, " end {count},")?,
                number => write!(out, " refusal {number} {count},")?,
            }
        }
        write!(out, " {} rows listed; lines by value:", self.rows)?;
        for (kind, count) in (0..).zip(self.lines) {
            write!(out, " {} {count},", kind_name(kind))?;
        }
        write!(out, " {} bytes compared:", self.bytes)
    }
}

/// A delivery that is listed otherwise.
pub struct Difference {
    pub delivery: Delivery,
    pub wanted: String,
    pub got: Output,
}

/// Why a run stopped short.
pub enum Stop {
    Difference(Box<Difference>),
    Broken(String),
    /// All listings were right, but these were never met.
    Unmet(Vec<String>),
}

impl From<io::Error> for Stop {
    fn from(error: io::Error) -> Self {
        Stop::Broken(format!("a delivery could not be listed: {error}"))
    }
}

fn is_right(got: &Output, wanted: &Listing) -> bool {
    got.status.success() && got.stderr.is_empty() && got.stdout == wanted.text.as_bytes()
}

struct Run<'a> {
    program: &'a Program,
    folder: Folder,
    tally: Tally,
}

impl Run<'_> {
    fn listed(&self, delivery: &Delivery) -> io::Result<Output> {
        self.folder.lay(delivery)?;
        self.program.output_in(&self.folder.0)
    }

    fn take(&mut self, kind: Kind, delivery: Delivery) -> Result<(), Stop> {
        let got = self.listed(&delivery)?;
        let wanted = listing(&delivery);
        if !is_right(&got, &wanted) {
            return Err(Stop::Difference(Box::new(Difference { delivery, wanted: wanted.text, got })));
        }
        self.tally.add(kind, &wanted);
        Ok(())
    }
}

/// All fixed deliveries, then random ones up to `count` in all.
pub fn run(program: &Program, seed: u64, count: u64) -> Result<Tally, Stop> {
    let mut run = Run { program, folder: Folder::new()?, tally: Tally::default() };
    let mut stopped = Ok(());
    deliveries::fixed(&mut |kind, delivery| {
        if stopped.is_ok() {
            stopped = run.take(kind, delivery);
        }
    });
    stopped?;
    for number in run.tally.deliveries..count {
        let (kind, delivery) = deliveries::random(&mut Rng::for_case(seed, number));
        run.take(kind, delivery)?;
    }
    match run.tally.unmet() {
        unmet if unmet.is_empty() => Ok(run.tally),
        unmet => Err(Stop::Unmet(unmet)),
    }
}

/// A delivery that has all files, as a case of one inline table.
fn as_case(delivery: &Delivery) -> Option<Case> {
    let Delivery { schema: Some(records), names: Some(names), stream: Some(input) } = delivery.clone() else {
        return None;
    };
    let references = inline(Block { first: 0, count: record_count(&records) }).to_vec();
    Some(Case { op: op::RUN, records, names, references, input, ..Case::default() }.with_settings(usual()))
}

/// A smaller delivery that is listed otherwise too, if all files are there, in words; and both listings.
pub fn report(program: &Program, found: Difference) -> io::Result<String> {
    let run = Run { program, folder: Folder::new()?, tally: Tally::default() };
    let Some(case) = as_case(&found.delivery) else {
        return Ok(format!("{:?}\n{}", found.delivery, both(&found.wanted, &found.got)));
    };
    let delivery = |case: &Case| {
        let Case { records, names, input, .. } = case.clone();
        Delivery { schema: Some(records), names: Some(names), stream: Some(input) }
    };
    let differs = |case: &Case| {
        let delivery = delivery(case);
        run.listed(&delivery).is_ok_and(|got| !is_right(&got, &listing(&delivery)))
    };
    if !differs(&case) {
        return Ok(format!("it is listed rightly when asked again\n{}", both(&found.wanted, &found.got)));
    }
    let smallest = delivery(&crate::shrink::shrink(case, &mut |cases| cases.iter().map(differs).collect()));
    let shown = as_case(&smallest).expect("it has all files");
    let got = run.listed(&smallest)?;
    Ok(format!("{}{}", crate::show::describe(&shown), both(&listing(&smallest).text, &got)))
}

/// The first line that differs, of both.
fn both(wanted: &str, got: &Output) -> String {
    let printed = String::from_utf8_lossy(&got.stdout);
    let same = wanted.split('\n').zip(printed.split('\n')).take_while(|(one, other)| one == other).count();
    let line = |text: &str| text.split('\n').nth(same).unwrap_or("(nothing)").to_owned();
    let errors = String::from_utf8_lossy(&got.stderr);
    format!(
        "  line {} of the program: {}\n  of the plain reading:  {}\n  {} {errors}",
        same + 1,
        line(&printed),
        line(wanted),
        got.status
    )
}
