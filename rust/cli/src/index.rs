//! The subcommands of an index: index, row.

use std::fs;
use std::io::{self, BufWriter, Write};

use clap::ArgMatches;
use skiff::{Decoder, Error, OwnedIndex};

use crate::files::{self, STANDARD_INPUT};
use crate::json;
use crate::output::{self, Output};
use crate::read_rows::{say, settings, word};
use crate::words::{output_failed, Failure, Status};
use crate::write_rows::checked;

/// The index's file: the one named, else that beside the stream.
fn index_name(given: &ArgMatches) -> Result<String, Failure> {
    let stream = word(given, "stream");
    let failed = |words: &str| Err(Failure::File(words.to_owned()));
    let name = match given.get_one::<String>("index") {
        Some(name) if name == STANDARD_INPUT => return failed("an index is a file"),
        Some(name) => name.clone(),
        None if stream == STANDARD_INPUT => {
            return failed("standard input has no index beside it: --index names one");
        }
        None => format!("{stream}.index"),
    };
    // A slip in the names must not put the index in the stream's place.
    match (fs::canonicalize(&name), fs::canonicalize(stream)) {
        (Ok(one), Ok(other)) if one == other => failed("the index and the stream are one file"),
        _ => Ok(name),
    }
}

fn write(name: &str, records: &[u8]) -> Result<(), Failure> {
    let Output { mut writer, names } = Output::open(Some(name))?;
    let done = writer.write_all(records).and_then(|()| writer.flush()).map_err(output_failed);
    output::settle(names, done).map(drop)
}

/// Builds, checks or extends, and tells what a run over the stream tells.
pub fn index(given: &ArgMatches) -> Result<Status, Failure> {
    let (name, stream_name) = (index_name(given)?, word(given, "stream"));
    let tables = files::format(word(given, "format"))?;
    let (checks, extends) = (given.get_flag("check"), given.get_flag("extend"));
    let there = if checks || extends { files::whole(&name)? } else { Vec::new() };
    let stream = files::whole(stream_name)?;
    let answer = Decoder::from_slice(&stream, &tables).and_then(|decoder| {
        let decoder = decoder.with_settings(settings(given));
        let mut index = OwnedIndex::from(there);
        if checks {
            decoder.check_index(&index)?;
        } else if extends {
            decoder.extend_index(&mut index)?;
        } else {
            index = decoder.build_index()?;
        }
        Ok(index)
    });
    match answer {
        Ok(index) => {
            let words = format!("end {} {}", index.index().len(), stream.len());
            if !checks {
                write(&name, &index.into_records())?;
            }
            say(&words).map(|()| Status::Accepted)
        }
        Err(Error::Refused(refused)) => say(&refused.to_string()).map(|()| Status::Refused),
        Err(other) => Err(Failure::of_file(stream_name, other)),
    }
}

/// Shows the row of a number.
pub fn row(given: &ArgMatches) -> Result<Status, Failure> {
    let (name, stream_name, format_name) = (index_name(given)?, word(given, "stream"), word(given, "format"));
    let number = *given.get_one::<u64>("row").expect("it is required");
    let tables = files::format(format_name)?;
    checked(format_name, &tables.format())?;
    let (index, stream) = (files::whole(&name)?, files::whole(stream_name)?);
    let failed = |error| match error {
        Error::Refused(refused) => Failure::Refused(format!("{stream_name}: {refused}")),
        other => Failure::of_file(stream_name, other),
    };
    let decoder = Decoder::from_slice(&stream, &tables).map_err(failed)?;
    let mut decoder = decoder.with_settings(settings(given));
    let row = decoder.indexed_row(&index[..], number).map_err(failed)?;
    let mut out = BufWriter::with_capacity(1 << 16, io::stdout().lock());
    let written = match given.get_flag("json") {
        true => json::write_row(&mut out, &json::schemas(&tables.format()), &row),
        false => write!(out, "{}", row.listing(number)),
    };
    written.and_then(|()| out.flush()).map_err(output_failed)?;
    Ok(Status::Accepted)
}
