//! The subcommands that read: check, run, list, cat.

use std::io::{self, BufWriter, Write};
use std::sync::atomic::{AtomicUsize, Ordering};
use std::sync::mpsc;
use std::thread;

use clap::ArgMatches;
use skiff::{Decoder, Error, Format, FromReader, Refusal, Refused, Row, Settings, Stop};

use crate::files::{self, Input, STANDARD_INPUT};
use crate::json;
use crate::progress::{Progress, Watched};
use crate::words::{output_failed, Failure, Status};

type Stream<'f, 'p> = Decoder<'f, FromReader<Watched<'p, Box<dyn io::Read + Send>>>>;

pub fn word<'m>(given: &'m ArgMatches, name: &str) -> &'m str {
    given.get_one::<String>(name).expect("it is required or has a default")
}

pub fn settings(given: &ArgMatches) -> Settings {
    let number = |name: &str| given.try_get_one::<u64>(name).ok().flatten().copied();
    let usual = Settings::default();
    usual
        .with_node_charge(number("node-charge").unwrap_or(usual.node_charge()))
        .with_max_string32_bytes(number("max-string32-bytes").unwrap_or(usual.max_string32_bytes()))
        .with_max_yson32_bytes(number("max-yson32-bytes").unwrap_or(usual.max_yson32_bytes()))
        .with_max_row_bytes(number("max-row-bytes").unwrap_or(usual.max_row_bytes()))
}

/// Says it, and nothing more.
pub fn say(words: &str) -> Result<(), Failure> {
    let mut out = io::stdout().lock();
    writeln!(out, "{words}").and_then(|()| out.flush()).map_err(output_failed)
}

pub fn check(given: &ArgMatches) -> Result<Status, Failure> {
    let tables = files::format(word(given, "format"))?;
    match tables.format().check() {
        Ok(()) => say("accepted").map(|()| Status::Accepted),
        Err(refusal) => say(&tables.format().explain(refusal).to_string()).map(|()| Status::Refused),
    }
}

/// Which name it is that is no UTF-8, where a format is refused for one: the refusal carries nothing to tell it by.
fn bad_name(format: &Format, refusal: Refusal) -> Option<String> {
    (refusal == Refusal::NameNotUtf8).then(|| format.bad_name().map(|bad| bad.to_string()))?
}

/// A decoder over an opened stream; a format that is none is told as a run over it would be.
fn decoder<'f, 'p>(
    format: Format<'f>,
    settings: Settings,
    input: Input,
    progress: &'p Progress,
) -> Result<Stream<'f, 'p>, Failure> {
    Decoder::from_reader(progress.watch(input.reader), format)
        .map(|decoder| decoder.with_settings(settings))
        .map_err(|refusal| Failure::Refused(refusal.to_string()))
}

/// A refusal, or the failure of a stream.
fn refused(name: &str, error: Error) -> Result<Refused, Failure> {
    match error {
        Error::Refused(refused) => Ok(refused),
        other => Err(Failure::of_file(name, other)),
    }
}

/// A stream counted: the words, and whether it was accepted.
fn count(
    format: Format,
    settings: Settings,
    name: &str,
    input: Input,
    progress: &Progress,
) -> Result<(String, Status), Failure> {
    let mut decoder = decoder(format, settings, input, progress)?;
    let run = decoder.run().map_err(|error| Failure::of_file(name, error))?;
    let (rows, bytes) = (run.rows, run.bytes);
    Ok(match run.stop {
        Stop::End => (format!("end {rows} {bytes}"), Status::Accepted),
        Stop::Refused(refusal) => {
            // Asked for the row itself, the decoder says which value it is.
            let path = match decoder.next_row().map_err(|error| refused(name, error)) {
                Err(Ok(refused)) if !refused.path.is_empty() => format!(": {}", refused.path),
                _ => String::new(),
            };
            (format!("{refusal} after {rows} rows, {bytes} bytes{path}"), Status::Refused)
        }
    })
}

pub fn run(given: &ArgMatches) -> Result<Status, Failure> {
    let names: Vec<&String> = given.get_many("stream").expect("one at least").collect();
    if names.iter().filter(|name| *name == &STANDARD_INPUT).count() > 1 {
        return Err(Failure::File("standard input is one stream".to_owned()));
    }
    let tables = files::format(word(given, "format"))?;
    if let Err(refusal) = tables.format().check() {
        let name = bad_name(&tables.format(), refusal).map_or(String::new(), |words| format!(": {words}"));
        return say(&format!("{refusal} after 0 rows, 0 bytes{name}")).map(|()| Status::Refused);
    }
    let jobs = usize::from(*given.get_one::<u16>("jobs").expect("it has a default")).min(names.len());
    let lengths = names.iter().map(|name| std::fs::metadata(name).ok().map(|about| about.len()));
    let progress = Progress::new(lengths.sum());
    let next = AtomicUsize::new(0);
    let (sender, answers) = mpsc::channel();
    let mut status = Status::Accepted;
    thread::scope(|threads| {
        for _ in 0..jobs {
            let (sender, names, next, progress, tables) = (sender.clone(), &names, &next, &progress, &tables);
            threads.spawn(move || {
                // A stream is taken when the one before it is done.
                while let Some((index, name)) = {
                    let index = next.fetch_add(1, Ordering::Relaxed);
                    names.get(index).map(|name| (index, name))
                } {
                    let answer = files::input(name)
                        .and_then(|input| count(tables.format(), settings(given), name, input, progress));
                    if sender.send((index, answer)).is_err() {
                        return;
                    }
                }
            });
        }
        drop(sender);
        let told = tell(&names, answers, &progress, &mut status);
        // Nobody reads on: no further stream is begun.
        next.store(names.len(), Ordering::Relaxed);
        told
    })?;
    progress.clear();
    Ok(status)
}

type Counted = Result<(String, Status), Failure>;

/// Tells the answers in the order of the streams.
fn tell(
    names: &[&String],
    answers: mpsc::Receiver<(usize, Counted)>,
    progress: &Progress,
    status: &mut Status,
) -> Result<(), Failure> {
    let mut waiting: Vec<Option<Counted>> = names.iter().map(|_| None).collect();
    let mut next = 0;
    for (index, answer) in answers {
        waiting[index] = Some(answer);
        while let Some(answer) = waiting.get_mut(next).and_then(Option::take) {
            progress.clear();
            match answer {
                Ok((words, found)) => {
                    *status = (*status).max(found);
                    let name = if names.len() > 1 { format!("{}: ", names[next]) } else { String::new() };
                    say(&format!("{name}{words}"))?;
                }
                Err(failure) => {
                    *status = (*status).max(failure.status());
                    failure.tell();
                }
            }
            next += 1;
        }
    }
    Ok(())
}

/// Tells each row of a stream by `tell`, and gives the refusal where there is one; rows and bytes after it.
fn each_row(
    given: &ArgMatches,
    tables: &skiff::FormatTables,
    mut tell: impl FnMut(&mut dyn Write, u64, Row) -> io::Result<()>,
    last: impl FnOnce(&mut dyn Write, Option<&Refused>, u64, u64) -> io::Result<()>,
) -> Result<Status, Failure> {
    let name = word(given, "stream");
    let input = files::input(name)?;
    let progress = Progress::new(input.length);
    let mut out = BufWriter::with_capacity(1 << 16, io::stdout().lock());
    let mut decoder = decoder(tables.format(), settings(given), input, &progress)?;
    let found = loop {
        let number = decoder.rows_passed();
        match decoder.next_row() {
            Ok(Some(row)) => tell(&mut out, number, row).map_err(output_failed)?,
            Ok(None) => break None,
            // What was read before it is told first.
            Err(error) => match refused(name, error) {
                Ok(refused) => break Some(refused),
                Err(failure) => {
                    out.flush().map_err(output_failed)?;
                    return Err(failure);
                }
            },
        }
    };
    progress.clear();
    let (rows, bytes) = (decoder.rows_passed(), decoder.position());
    last(&mut out, found.as_ref(), rows, bytes).and_then(|()| out.flush()).map_err(output_failed)?;
    match found {
        None => Ok(Status::Accepted),
        Some(refused) => Err(Failure::Refused(format!("{name}: {refused}"))),
    }
}

pub fn list(given: &ArgMatches) -> Result<Status, Failure> {
    let tables = files::format(word(given, "format"))?;
    if let Err(refusal) = tables.format().check() {
        say(&format!("refused {} {}", refusal.number(), refusal.place()))?;
        return match bad_name(&tables.format(), refusal) {
            Some(words) => Err(Failure::Refused(format!("{}: {words}", word(given, "format")))),
            None => Ok(Status::Refused),
        };
    }
    each_row(
        given,
        &tables,
        |out, number, row| write!(out, "{}", row.listing(number)),
        |out, refused, rows, bytes| match refused.map(|refused| refused.refusal) {
            None => writeln!(out, "end {rows} {bytes}"),
            Some(refusal) => writeln!(out, "refused {} {}", refusal.number(), refusal.place()),
        },
    )
}

pub fn cat(given: &ArgMatches) -> Result<Status, Failure> {
    let tables = files::format(word(given, "format"))?;
    if let Err(refusal) = tables.format().check() {
        return Err(Failure::Refused(tables.format().explain(refusal).to_string()));
    }
    let schemas = json::schemas(&tables.format());
    each_row(given, &tables, |out, _, row| json::write_row(out, &schemas, &row), |_, _, _, _| Ok(()))
}
