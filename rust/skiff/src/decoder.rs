//! Row after row of a stream, from a slice or from a reader.

mod indexed;

use std::fmt;
use std::io::{self, Read};

use crate::error::{Refused, Where};
use crate::source::sealed::More;
use crate::source::{grow, FromReader, FromSlice, Source};
use crate::sys::VALUE_RECORD_BYTES;
use crate::{path, Error, Extent, Format, OwnedRow, Refusal, Row, Run, Settings, WindowRun};

pub use indexed::IndexedRows;

/// Reads a stream row by row, with buffers of its own that grow as rows need it.
///
/// ```
/// use skiff::{Decoder, FormatBuilder, Schema, WireType};
///
/// let page = Schema::leaf(WireType::Uint8).named("page");
/// let tables = FormatBuilder::new().table(Schema::tuple([page])).build()?;
/// let stream: &[u8] = &[0, 0, 0x25, 0, 0, 0x26, 0, 0];
///
/// // The same from a slice and from whatever can be read.
/// let mut decoder = Decoder::from_reader(stream, &tables)?.with_max_blob_bytes(1 << 20);
/// let mut pages = Vec::new();
/// let error = loop {
///     match decoder.next_row() {
///         Ok(Some(row)) => pages.push(row.get("page").and_then(|page| page.as_u64())),
///         Ok(None) => panic!("the last row is cut"),
///         Err(error) => break error,
///     }
/// };
/// assert_eq!(pages, [Some(0x25), Some(0x26)]);
/// let words = "refused 12 Truncated (context 8 uint8) at 8: byte 8, row 2, column \"page\"";
/// assert_eq!(error.to_string(), words);
/// # Ok::<(), Box<dyn std::error::Error>>(())
/// ```
///
/// Over a slice it also finds rows by their numbers, through an index: [`Decoder::indexed_row`].
///
/// A refusal moves nothing: asked again, the decoder refuses again. A stream has at most
/// [`Settings::MOST_BYTES`] bytes: a longer slice is refused by [`Refusal::Setting`] at once, and what a longer
/// reader gives after the rows up to there.
pub struct Decoder<'f, S> {
    format: Format<'f>,
    settings: Settings,
    source: S,
    /// Where the next row begins in the window.
    at: usize,
    rows: u64,
    records: Vec<u8>,
    payload: Vec<u8>,
}

impl<'f, 's> Decoder<'f, FromSlice<'s>> {
    /// Over a stream that is a slice. Refuses what is no format.
    pub fn from_slice(input: &'s [u8], format: impl Into<Format<'f>>) -> Result<Self, Error> {
        Self::over(FromSlice(input), format.into())
    }
}

impl<'f, R: Read> Decoder<'f, FromReader<R>> {
    /// Over a stream that is read piece by piece; a `BufReader` around it would be one buffer too many. Refuses
    /// what is no format.
    ///
    /// The buffer is as long as the longest row and a piece. A row that is cut is asked for again with each
    /// piece that the reader gives, so that no row waits for bytes after it.
    pub fn from_reader(reader: R, format: impl Into<Format<'f>>) -> Result<Self, Error> {
        Self::over(FromReader::new(reader), format.into())
    }

    /// The reader, which has given the decoder at least all bytes up to [`Decoder::position`].
    pub fn into_inner(self) -> R {
        self.source.reader
    }
}

impl<'f, S: Source> Decoder<'f, S> {
    fn over(source: S, format: Format<'f>) -> Result<Self, Error> {
        format.check().map_err(|refusal| format.explain(refusal))?;
        let (settings, records, payload) = (Settings::default(), Vec::new(), Vec::new());
        Ok(Self { format, settings, source, at: 0, rows: 0, records, payload })
    }

    /// With all of these settings.
    #[must_use]
    pub fn with_settings(self, settings: Settings) -> Self {
        Self { settings, ..self }
    }

    /// With another limit of a string32.
    #[must_use]
    pub fn with_max_string32_bytes(self, bytes: u64) -> Self {
        let settings = self.settings.with_max_string32_bytes(bytes);
        self.with_settings(settings)
    }

    /// With another limit of a yson32.
    #[must_use]
    pub fn with_max_yson32_bytes(self, bytes: u64) -> Self {
        let settings = self.settings.with_max_yson32_bytes(bytes);
        self.with_settings(settings)
    }

    /// With another limit of every blob, string32 and yson32 alike.
    #[must_use]
    pub fn with_max_blob_bytes(self, bytes: u64) -> Self {
        let settings = self.settings.with_max_blob_bytes(bytes);
        self.with_settings(settings)
    }

    /// With another limit of a row.
    #[must_use]
    pub fn with_max_row_bytes(self, bytes: u64) -> Self {
        let settings = self.settings.with_max_row_bytes(bytes);
        self.with_settings(settings)
    }

    /// The format that it reads by.
    pub fn format(&self) -> Format<'f> {
        self.format
    }

    /// The offset in the stream where the next row begins.
    pub fn position(&self) -> u64 {
        self.source.window().1 + self.at as u64
    }

    /// How many rows came before it.
    pub fn rows_passed(&self) -> u64 {
        self.rows
    }

    /// The next row; none at the end of the stream.
    pub fn next_row(&mut self) -> Result<Option<Row<'_, 'f>>, Error> {
        let extent = self.next(|decoder| {
            let Self { format, settings, at, records, payload, .. } = decoder;
            format.decode(settings, decoder.source.window().0, *at, records, payload)
        })?;
        Ok(extent.map(|extent| Row::new(extent, self.format, &self.records, &self.payload)))
    }

    /// Passes the next row, by the same rules; none at the end of the stream.
    pub fn skip_row(&mut self) -> Result<Option<Extent>, Error> {
        self.next(|decoder| decoder.format.skip_row(&decoder.settings, decoder.source.window().0, decoder.at))
    }

    /// Asks for the row at hand until the answer stands: with more room, and while it may change, with more
    /// bytes.
    fn next(
        &mut self,
        mut call: impl FnMut(&mut Self) -> Result<Option<Extent>, Refusal>,
    ) -> Result<Option<Extent>, Error> {
        loop {
            let answer = call(self);
            let asks_again = match answer {
                Ok(Some(extent)) => {
                    self.at += extent.bytes;
                    self.rows += 1;
                    false
                }
                Ok(None) | Err(Refusal::Truncated { .. }) => match self.more()? {
                    More::Bytes => true,
                    More::Nothing => false,
                    More::TooMany => return Ok(self.too_long().to_end().map(|_| None)?),
                },
                Err(refusal) => self.makes_room(&refusal)?,
            };
            if !asks_again {
                return answer.map_err(|refusal| self.refused(refusal).into());
            }
        }
    }

    /// Whether there is more room now, for a row that was refused for want of it.
    fn makes_room(&mut self, refusal: &Refusal) -> io::Result<bool> {
        match *refusal {
            Refusal::NoNodeRoom { needed, .. } => {
                more_room(&mut self.records, needed.saturating_mul(VALUE_RECORD_BYTES as u64))
            }
            Refusal::NoPayloadRoom { needed, .. } => more_room(&mut self.payload, needed),
            _ => Ok(false),
        }
    }

    /// [`More::Bytes`] also where there are none, but those at hand begin elsewhere in the stream: an answer
    /// is about those at hand.
    fn more(&mut self) -> io::Result<More> {
        let (position, start) = (self.position(), self.source.window().1);
        let more = self.source.more(self.at);
        let start_now = self.source.window().1;
        self.at = (position - start_now) as usize;
        let moved = start_now != start;
        more.map(|more| if moved { More::Bytes } else { more })
    }

    /// What the library says of a stream of one byte more than the most.
    fn too_long(&self) -> Run {
        self.format.run_window(&self.settings, 0, Settings::MOST_BYTES, &[0]).run
    }

    fn refused(&self, refusal: Refusal) -> Refused {
        self.refused_at(self.at, self.rows, refusal)
    }

    /// The refusal of the row of this number, which begins at this byte of the window.
    fn refused_at(&self, begins: usize, row: u64, refusal: Refusal) -> Refused {
        let (window, start) = self.source.window();
        let path = path::in_stream(&self.format, &self.settings, window, begins, &refusal);
        let at = if refusal.is_at_an_offset() { Where::Row(row) } else { Where::Nowhere };
        Refused { refusal: refusal.moved(start), path: path.unwrap_or_default(), at }
    }

    /// Passes all rows that are left, in far fewer calls than by [`Decoder::skip_row`]. The rows and bytes of
    /// the answer are all those of the stream so far; of one that is too long there are none.
    ///
    /// ```
    /// # use skiff::{Decoder, FormatBuilder, Refusal, Schema, Stop, WireType};
    /// # let page = Schema::leaf(WireType::Uint8).named("page");
    /// # let tables = FormatBuilder::new().table(Schema::tuple([page])).build()?;
    /// let mut decoder = Decoder::from_reader(&[0, 0, 0x25, 0, 0, 0x26, 1, 0][..], &tables)?;
    /// let run = decoder.run()?;
    /// assert_eq!((run.rows, run.bytes), (2, 6));
    /// assert_eq!(run.stop, Stop::Refused(Refusal::MissingTableSchema { index: 1, place: 6 }));
    /// # Ok::<(), Box<dyn std::error::Error>>(())
    /// ```
    pub fn run(&mut self) -> Result<Run, Error> {
        loop {
            let (window, _) = self.source.window();
            let window = &window[self.at..];
            let WindowRun { run, may_change } =
                self.format.run_window(&self.settings, self.rows, self.position(), window);
            // Refused before any row, it has 0 rows and 0 bytes.
            if let Some(passed) = run.bytes.checked_sub(self.position()) {
                self.at += passed as usize;
                self.rows = run.rows;
            }
            let more = if may_change { self.more()? } else { More::Nothing };
            match more {
                More::Bytes => {}
                More::Nothing => return Ok(run),
                More::TooMany => return Ok(self.too_long()),
            }
        }
    }

    /// The rows that are left, each in memory of its own; after a refusal there is none.
    ///
    /// ```
    /// # use skiff::{Decoder, FormatBuilder, Schema, WireType};
    /// # let page = Schema::leaf(WireType::Uint8).named("page");
    /// # let tables = FormatBuilder::new().table(Schema::tuple([page])).build()?;
    /// let mut decoder = Decoder::from_slice(&[0, 0, 0x25, 0, 0, 0x26], &tables)?;
    /// let rows: Vec<_> = decoder.rows().collect::<Result<_, _>>()?;
    /// assert_eq!(rows[1].row().get("page").and_then(|page| page.as_u64()), Some(0x26));
    /// # Ok::<(), Box<dyn std::error::Error>>(())
    /// ```
    pub fn rows(&mut self) -> Rows<'_, 'f, S> {
        Rows { decoder: self, done: false }
    }
}

/// Where it stands; not what its buffers hold.
impl<S: Source> fmt::Debug for Decoder<'_, S> {
    fn fmt(&self, out: &mut fmt::Formatter<'_>) -> fmt::Result {
        out.debug_struct("Decoder")
            .field("position", &self.position())
            .field("rows_passed", &self.rows)
            .field("settings", &self.settings)
            .finish_non_exhaustive()
    }
}

/// Grows a buffer to so many bytes. False where that would not help: it is as long already, or the library
/// would not look at all of it.
fn more_room(buffer: &mut Vec<u8>, needed: u64) -> io::Result<bool> {
    if needed > Settings::MOST_BYTES || needed <= buffer.len() as u64 {
        return Ok(false);
    }
    // Twice as long at least, so that slowly growing rows do not grow it each time.
    grow(buffer, needed.max(2 * buffer.len() as u64).min(Settings::MOST_BYTES))?;
    Ok(true)
}

/// The rows of a decoder that are left.
pub struct Rows<'d, 'f, S> {
    decoder: &'d mut Decoder<'f, S>,
    done: bool,
}

impl<'f, S: Source> Iterator for Rows<'_, 'f, S> {
    type Item = Result<OwnedRow<'f>, Error>;

    fn next(&mut self) -> Option<Self::Item> {
        if self.done {
            return None;
        }
        let next = self.decoder.next_row().map(|row| row.map(|row| row.to_owned_row())).transpose();
        self.done = !matches!(next, Some(Ok(_)));
        next
    }
}

impl<S: Source> fmt::Debug for Rows<'_, '_, S> {
    fn fmt(&self, out: &mut fmt::Formatter<'_>) -> fmt::Result {
        out.debug_struct("Rows").field("decoder", self.decoder).field("done", &self.done).finish()
    }
}

impl<S: Source> std::iter::FusedIterator for Rows<'_, '_, S> {}

#[cfg(test)]
mod tests {
    use super::*;
    use crate::{FormatBuilder, Schema, WireType};

    /// The bound on a stream's length, at a length that can be tried.
    #[test]
    fn a_stream_over_the_bound_is_refused_after_the_rows_before_it() {
        let schema = Schema::tuple([Schema::leaf(WireType::Uint8).named("page")]);
        let tables = FormatBuilder::new().table(schema).build().expect("short names");
        let stream = [0, 0, 7].repeat(5);
        for (most, rows, refused) in
            [(15, 5, false), (16, 5, false), (14, 4, true), (12, 4, true), (3, 1, true)]
        {
            let mut decoder = Decoder::from_reader(&stream[..], &tables).expect("a format");
            decoder.source.most = most;
            let all: Vec<_> = decoder.rows().collect();
            assert_eq!(all.iter().filter(|row| row.is_ok()).count(), rows);
            let last = all.last().and_then(|row| row.as_ref().err()).and_then(Error::refusal);
            assert_eq!(last, refused.then_some(Refusal::Setting), "{most}");
            // Asked again, it says the same.
            assert_eq!(decoder.next_row().is_err(), refused);
        }
    }
}
