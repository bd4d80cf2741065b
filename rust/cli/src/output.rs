//! Where the command writes what it makes.

use std::fs::{self, File};
use std::io::{self, Write};
use std::path::PathBuf;

use crate::words::{Failure, Status};

/// Where it goes: standard output, or a file, which is there under its name only once it is whole.
pub struct Output {
    pub writer: Box<dyn Write>,
    /// The name that it is written under, and its own.
    pub names: Option<(PathBuf, PathBuf)>,
}

impl Output {
    pub fn open(name: Option<&str>) -> Result<Self, Failure> {
        let Some(name) = name else {
            return Ok(Self { writer: Box::new(io::stdout().lock()), names: None });
        };
        // What is there already and is no file, a pipe or a device, is written to as it is.
        let is_file = fs::metadata(name).map_or(true, |about| about.is_file());
        let part = PathBuf::from(if is_file { format!("{name}.part") } else { name.to_owned() });
        let file = File::create(&part).map_err(|error| Failure::of_file(part.display(), error))?;
        Ok(Self { writer: Box::new(file), names: is_file.then(|| (part, PathBuf::from(name))) })
    }
}

/// Gives a file its own name, or takes away what was not finished.
pub fn settle(names: Option<(PathBuf, PathBuf)>, done: Result<(), Failure>) -> Result<Status, Failure> {
    if let Some((part, name)) = names {
        match &done {
            Ok(()) => fs::rename(&part, &name).map_err(|error| Failure::of_file(name.display(), error))?,
            Err(_) => drop(fs::remove_file(&part)),
        }
    }
    done.map(|()| Status::Accepted)
}
