//! A bar on a terminal, for work that takes more than a second.

use std::io::{self, Read};
use std::sync::Mutex;
use std::time::{Duration, Instant};

use indicatif::{ProgressBar, ProgressDrawTarget, ProgressStyle};

const QUIET: Duration = Duration::from_secs(1);

/// The bytes of all streams together.
pub struct Progress {
    total: Option<u64>,
    started: Instant,
    state: Mutex<State>,
}

#[derive(Default)]
struct State {
    bytes: u64,
    bar: Option<ProgressBar>,
}

impl Progress {
    pub fn new(total: Option<u64>) -> Self {
        Self { total, started: Instant::now(), state: Mutex::default() }
    }

    fn add(&self, bytes: usize) {
        let mut state = self.state.lock().expect("nothing fails while it is held");
        state.bytes += bytes as u64;
        if state.bar.is_none() && self.started.elapsed() < QUIET {
            return;
        }
        let position = state.bytes;
        state.bar.get_or_insert_with(|| self.bar()).set_position(position);
    }

    /// Nothing is drawn where standard error is no terminal.
    fn bar(&self) -> ProgressBar {
        let Some(total) = self.total else {
            return ProgressBar::with_draw_target(None, ProgressDrawTarget::stderr())
                .with_style(ProgressStyle::with_template("{bytes} read").expect("a good template"));
        };
        let style = ProgressStyle::with_template("{bar:40} {bytes} of {total_bytes}, {eta} left");
        ProgressBar::with_draw_target(Some(total), ProgressDrawTarget::stderr())
            .with_style(style.expect("a good template"))
    }

    /// The reader, whose bytes are counted.
    pub fn watch<R: Read>(&self, reader: R) -> Watched<'_, R> {
        Watched { reader, progress: self }
    }

    pub fn clear(&self) {
        if let Some(bar) = &self.state.lock().expect("nothing fails while it is held").bar {
            bar.finish_and_clear();
        }
    }
}

pub struct Watched<'p, R> {
    reader: R,
    progress: &'p Progress,
}

impl<R: Read> Read for Watched<'_, R> {
    fn read(&mut self, buffer: &mut [u8]) -> io::Result<usize> {
        let read = self.reader.read(buffer)?;
        self.progress.add(read);
        Ok(read)
    }
}
