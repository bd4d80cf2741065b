//! The program under test: cases in on stdin, an answer line for each out on stdout; or one that reads the
//! files of a folder.

use std::io::{self, Read, Write};
use std::path::Path;
use std::process::{Command, ExitStatus, Output, Stdio};
use std::thread;

use crate::case::Case;

#[derive(Debug, Clone)]
pub struct Program {
    /// Words before the program's own name, as an emulator's.
    pub runner: Vec<String>,
    pub path: String,
}

/// What a run of the program left.
pub struct Ran {
    pub lines: Vec<Option<String>>,
    pub status: ExitStatus,
}

impl Program {
    fn command(&self) -> Command {
        let mut words = self.runner.iter().chain([&self.path]);
        let mut command = Command::new(words.next().expect("there is a program"));
        command.args(words);
        command
    }

    /// Runs the program over `input` while this thread does `meanwhile`; what it wrote, how it ended,
    /// and the other's result. The whole batch is written and the input closed, whatever the program
    /// buffers.
    pub fn run<T>(&self, input: &[u8], meanwhile: impl FnOnce() -> T) -> io::Result<(Ran, T)> {
        let mut child = self.command().stdin(Stdio::piped()).stdout(Stdio::piped()).spawn()?;
        let mut stdin = child.stdin.take().expect("it is piped");
        let mut stdout = child.stdout.take().expect("it is piped");
        let (output, result) = thread::scope(|scope| {
            // A program that ends early breaks the pipe; its missing answers tell that better.
            scope.spawn(move || drop(stdin.write_all(input)));
            let reader = scope.spawn(move || {
                let mut output = Vec::new();
                stdout.read_to_end(&mut output).map(|_| output)
            });
            let result = meanwhile();
            (reader.join().expect("reading does not panic"), result)
        });
        let status = child.wait()?;
        Ok((Ran { lines: lines(&output?), status }, result))
    }

    /// What the program leaves, run in a folder without any input.
    pub fn output_in(&self, folder: &Path) -> io::Result<Output> {
        self.command().current_dir(folder).stdin(Stdio::null()).output()
    }

    /// The answers to some cases: none for those that the program left without one.
    pub fn answers(&self, cases: &[Case]) -> io::Result<Vec<Option<String>>> {
        let mut input = Vec::new();
        cases.iter().for_each(|case| case.write_to(&mut input));
        let mut lines = self.run(&input, || ())?.0.lines;
        if lines.len() < cases.len() && cases.len() > 1 {
            // It died on one of them: ask singly, so that the others keep their answers.
            lines.clear();
            for case in cases {
                lines.extend(self.answers(std::slice::from_ref(case))?);
            }
            return Ok(lines);
        }
        lines.resize(cases.len(), None);
        Ok(lines)
    }
}

/// The complete lines of an output; what follows the last newline is no answer.
fn lines(output: &[u8]) -> Vec<Option<String>> {
    let mut lines: Vec<_> = output.split(|byte| *byte == b'\n').collect();
    lines.pop();
    lines.into_iter().map(|line| Some(String::from_utf8_lossy(line).into_owned())).collect()
}
