//! The files that the command is given.

use std::fs::{self, File};
use std::io::{self, Read};
use std::path::Path;

use skiff::{FormatTables, Settings};

use crate::progress::Progress;
use crate::schema_text;
use crate::words::Failure;

/// What stands for standard input.
pub const STANDARD_INPUT: &str = "-";

/// The names of a format's tables in a folder.
pub const TABLES: [&str; 4] = ["schema.rec", "schema.nam", "tables.ref", "registry.reg"];

/// The tables of a format, from a folder of them or from a text. Nothing is checked but that they can be read.
pub fn format(name: &str) -> Result<FormatTables, Failure> {
    let folder = Path::new(name);
    if !folder.is_dir() {
        let text = fs::read_to_string(name).map_err(|error| Failure::of_file(name, error))?;
        return schema_text::tables(&text).map_err(|words| Failure::Refused(format!("{name}: {words}")));
    }
    let read = |file: &str| {
        let path = folder.join(file);
        fs::read(&path).map_err(|error| (error.kind(), Failure::of_file(path.display(), error)))
    };
    let needed = |file: &str| read(file).map_err(|(_, failure)| failure);
    let optional = |file: &str| match read(file) {
        Ok(bytes) => Ok(Some(bytes)),
        Err((io::ErrorKind::NotFound, _)) => Ok(None),
        Err((_, failure)) => Err(failure),
    };
    let [records, names, references, registry] = TABLES;
    let records = needed(records)?;
    // Without references all records are the schema of the only table.
    let references = optional(references)?.unwrap_or_else(|| one_inline_table(records.len() / 16));
    Ok(FormatTables {
        names: needed(names)?,
        references,
        registry: optional(registry)?.unwrap_or_default(),
        records,
    })
}

fn one_inline_table(records: usize) -> Vec<u8> {
    let count = u32::try_from(records).unwrap_or(u32::MAX);
    [0, 0, count, 0].into_iter().flat_map(u32::to_le_bytes).collect()
}

/// A stream, and its length where it has one.
pub struct Input {
    pub reader: Box<dyn Read + Send>,
    pub length: Option<u64>,
}

/// Opens a file, or standard input.
pub fn input(name: &str) -> Result<Input, Failure> {
    if name == STANDARD_INPUT {
        return Ok(Input { reader: Box::new(io::stdin()), length: None });
    }
    let open = || {
        let file = File::open(name)?;
        let about = file.metadata()?;
        if about.is_dir() {
            return Err(io::Error::other("a folder in place of a file"));
        }
        Ok(Input { reader: Box::new(file), length: about.is_file().then_some(about.len()) })
    };
    open().map_err(|error| Failure::of_file(name, error))
}

/// A file, or standard input, as a whole: rows are found by their numbers in a slice alone. One that is longer than
/// a slice may be is read up to a byte too many, by which the library refuses it.
pub fn whole(name: &str) -> Result<Vec<u8>, Failure> {
    let Input { reader, length } = input(name)?;
    let progress = Progress::new(length);
    let most = Settings::MOST_BYTES + 1;
    let mut bytes = Vec::new();
    bytes
        .try_reserve_exact(length.unwrap_or_default().min(most) as usize)
        .map_err(|error| Failure::of_file(name, error))?;
    let read = progress.watch(reader).take(most).read_to_end(&mut bytes);
    progress.clear();
    read.map_err(|error| Failure::of_file(name, error))?;
    Ok(bytes)
}
