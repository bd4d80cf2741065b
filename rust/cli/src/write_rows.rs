//! The subcommands that write: encode, schema.

use std::fs;
use std::io::{self, BufRead, BufReader, BufWriter, Write};
use std::path::Path;

use clap::ArgMatches;
use skiff::{Encoder, Error, Format, ToWriter};

use crate::files::{self, TABLES};
use crate::json;
use crate::line::Line;
use crate::output::{self, Output};
use crate::progress::Progress;
use crate::read_rows::settings;
use crate::schema_text;
use crate::words::{output_failed, Failure, Status};

/// Refuses what is no format.
pub fn checked(name: &str, format: &Format) -> Result<(), Failure> {
    let refused = |refusal| Failure::Refused(format!("{name}: {}", format.explain(refusal)));
    format.check().map_err(refused)
}

pub fn encode(given: &ArgMatches) -> Result<Status, Failure> {
    let word = |name: &str| given.get_one::<String>(name);
    let (format_name, lines_name) = (word("format").expect("required"), word("lines").expect("a default"));
    let tables = files::format(format_name)?;
    let format = tables.format();
    checked(format_name, &format)?;
    let shapes = json::schemas(&format);
    let schema = format.table_schema(0).expect("a format has a table");
    let input = files::input(lines_name)?;
    let progress = Progress::new(input.length);
    let lines = BufReader::with_capacity(1 << 16, progress.watch(input.reader));
    let Output { writer, names } = Output::open(word("output").map(String::as_str))?;
    let done = Encoder::to_writer(BufWriter::with_capacity(1 << 16, writer), schema)
        .map_err(|refusal| Failure::Refused(refusal.to_string()))
        .map(|encoder| encoder.with_settings(settings(given)))
        .and_then(|encoder| write_lines(lines_name, lines, &shapes, encoder));
    progress.clear();
    output::settle(names, done)
}

/// Writes each line as a row.
fn write_lines<W: Write>(
    lines_name: &str,
    mut lines: impl BufRead,
    shapes: &[json::Shape],
    mut encoder: Encoder<ToWriter<W>>,
) -> Result<(), Failure> {
    let (mut line, mut number) = (Vec::new(), 0);
    loop {
        line.clear();
        let read = lines.read_until(b'\n', &mut line);
        if read.map_err(|error| Failure::of_file(lines_name, error))? == 0 {
            break;
        }
        number += 1;
        if line.trim_ascii().is_empty() {
            continue;
        }
        let at_line = |words: String| Failure::Refused(format!("{lines_name}: line {number}: {words}"));
        let Line(row) = serde_json::from_slice(&line)
            .map_err(|error| at_line(format!("column {}: {}", error.column(), first_words(&error))))?;
        let value = json::read_row(shapes, &row).map_err(|fault| at_line(fault.words()))?;
        encoder.write_value(&value).map_err(|error| match error {
            Error::Io(error) => output_failed(error),
            other => at_line(other.to_string()),
        })?;
    }
    encoder.flush().map_err(|error| match error {
        Error::Io(error) => output_failed(error),
        other => Failure::Refused(other.to_string()),
    })
}

/// What is wrong, without the place that is told before it.
fn first_words(error: &serde_json::Error) -> String {
    let words = error.to_string();
    words.split(" at line ").next().unwrap_or(&words).to_owned()
}

pub fn schema(given: &ArgMatches) -> Result<Status, Failure> {
    let name = given.get_one::<String>("format").expect("required");
    let tables = files::format(name)?;
    let format = tables.format();
    checked(name, &format)?;
    match given.get_one::<String>("output") {
        Some(folder) if !Path::new(name).is_dir() => {
            let write = |file: &str, bytes: &[u8]| {
                let path = Path::new(folder).join(file);
                fs::write(&path, bytes).map_err(|error| Failure::of_file(path.display(), error))
            };
            fs::create_dir_all(folder).map_err(|error| Failure::of_file(folder, error))?;
            let all = [&tables.records, &tables.names, &tables.references, &tables.registry];
            TABLES.iter().zip(all).try_for_each(|(file, bytes)| write(file, bytes))?;
        }
        Some(_) => return Err(Failure::File("--output is for a schema as text".to_owned())),
        None => {
            let text = schema_text::text(&format)
                .ok_or_else(|| Failure::Refused(format!("{name}: a schema of the registry is no table's")))?;
            let mut out = io::stdout().lock();
            out.write_all(text.as_bytes()).and_then(|()| out.flush()).map_err(output_failed)?;
        }
    }
    Ok(Status::Accepted)
}
