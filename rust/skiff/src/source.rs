//! Where the bytes of a stream come from.

use std::fmt;
use std::io::{self, ErrorKind, Read};

use crate::Settings;

/// Where a decoder's bytes come from: [`FromSlice`] or [`FromReader`].
pub trait Source: sealed::Source {}

pub(crate) mod sealed {
    use std::io;

    pub trait Source {
        /// The bytes at hand, and the offset of the first of them in the stream.
        fn window(&self) -> (&[u8], u64);

        /// Has more bytes behind those at hand, of which the first `passed` may be given up.
        fn more(&mut self, passed: usize) -> io::Result<More>;
    }

    #[derive(Clone, Copy, PartialEq, Eq)]
    pub enum More {
        Bytes,
        /// The stream has ended.
        Nothing,
        /// The stream has more than the most bytes, and those up to it are at hand.
        TooMany,
    }
}

use sealed::More;

/// A stream that is a slice.
#[derive(Debug, Clone, Copy)]
pub struct FromSlice<'s>(pub(crate) &'s [u8]);

impl Source for FromSlice<'_> {}

impl sealed::Source for FromSlice<'_> {
    fn window(&self) -> (&[u8], u64) {
        (self.0, 0)
    }

    fn more(&mut self, _: usize) -> io::Result<More> {
        Ok(More::Nothing)
    }
}

/// The first piece that a reader is asked for. Later ones are as long as what is at hand of a row.
const PIECE: usize = 65_536;

/// A stream that is read piece by piece.
pub struct FromReader<R> {
    pub(crate) reader: R,
    /// The bytes at hand are the first `filled`.
    buffer: Vec<u8>,
    filled: usize,
    /// How much of the stream came before them.
    start: u64,
    /// What the reader gave last.
    last: More,
    /// The longest stream.
    pub(crate) most: u64,
}

impl<R: Read> FromReader<R> {
    pub(crate) fn new(reader: R) -> Self {
        let most = Settings::MOST_BYTES;
        Self { reader, buffer: Vec::new(), filled: 0, start: 0, last: More::Bytes, most }
    }

    /// Up to `room` bytes more.
    fn read(&mut self, room: usize) -> io::Result<usize> {
        loop {
            match self.reader.read(&mut self.buffer[self.filled..self.filled + room]) {
                Err(error) if error.kind() == ErrorKind::Interrupted => {}
                read => return read,
            }
        }
    }
}

impl<R> fmt::Debug for FromReader<R> {
    fn fmt(&self, out: &mut fmt::Formatter<'_>) -> fmt::Result {
        write!(out, "FromReader {{ {} bytes from {} on }}", self.filled, self.start)
    }
}

impl<R: Read> Source for FromReader<R> {}

impl<R: Read> sealed::Source for FromReader<R> {
    fn window(&self) -> (&[u8], u64) {
        (&self.buffer[..self.filled], self.start)
    }

    fn more(&mut self, passed: usize) -> io::Result<More> {
        if self.last != More::Bytes {
            return Ok(self.last);
        }
        let kept = self.filled - passed;
        let left = usize::try_from(self.most - (self.start + self.filled as u64)).unwrap_or(usize::MAX);
        // Room for a piece at the buffer's end, some of which is that of what is given up. A byte over the most
        // is asked for too, to tell whether there is one.
        let room = kept.max(PIECE).min(left.max(1));
        grow(&mut self.buffer, kept as u64 + room as u64)?;
        self.buffer.copy_within(passed..self.filled, 0);
        (self.start, self.filled) = (self.start + passed as u64, kept);
        let read = self.read((self.buffer.len() - kept).min(left.max(1)))?;
        self.last = match read {
            0 => More::Nothing,
            _ if left == 0 => More::TooMany,
            _ => More::Bytes,
        };
        if self.last == More::Bytes {
            self.filled += read;
        }
        Ok(self.last)
    }
}

/// Makes a buffer so long.
pub(crate) fn grow(buffer: &mut Vec<u8>, bytes: u64) -> io::Result<()> {
    let bytes = usize::try_from(bytes).map_err(|_| ErrorKind::OutOfMemory)?;
    if let Some(more) = bytes.checked_sub(buffer.len()) {
        buffer.try_reserve(more).map_err(|_| ErrorKind::OutOfMemory)?;
        buffer.resize(bytes, 0);
    }
    Ok(())
}
