//! Formats and the calls that read by them.

use crate::report::Report;
use crate::{path, sys, Refusal, Refused, Row, Settings};

/// A format as flat tables that somebody else holds: what may stand in a stream, table by table. Every
/// call checks it whole, so there is no way to read by a bad one; [`crate::FormatBuilder`] makes them.
///
/// [`crate::Decoder`] goes from row to row; the calls here look at one position each, keep nothing and
/// allocate nothing.
#[derive(Debug, Clone, Copy, PartialEq, Eq, Hash)]
pub struct Format<'a> {
    /// Schema records, 16 bytes each.
    pub records: &'a [u8],
    /// The store that names lie in.
    pub names: &'a [u8],
    /// A reference for each table, 16 bytes each.
    pub references: &'a [u8],
    /// Schemas by name, 16 bytes each, ascending by name; often none.
    pub registry: &'a [u8],
}

/// An accepted row in numbers.
#[derive(Debug, Clone, Copy, PartialEq, Eq, Hash)]
pub struct Extent {
    /// Which table it is of.
    pub table: u16,
    /// How many bytes of the stream it is: the next row starts so much later.
    pub bytes: usize,
    /// How many value records [`Format::next_row`] writes for it, 16 bytes each.
    pub records: u64,
    /// How many payload bytes it writes: blobs, int128 and int256.
    pub payload: u64,
}

/// Why a run stopped.
#[derive(Debug, Clone, Copy, PartialEq, Eq, Hash)]
pub enum Stop {
    /// The stream ended after a row.
    End,
    /// The next row was refused, or an index after the last one.
    Refused(Refusal),
}

/// A run over a stream. `rows` and `bytes` are those of the rows before it stopped, so `bytes` is where
/// a refused row starts. Where not the run but an index was refused, after it, they are all that there are.
#[derive(Debug, Clone, Copy, PartialEq, Eq, Hash)]
pub struct Run {
    /// How many rows were accepted.
    pub rows: u64,
    /// How many bytes they are.
    pub bytes: u64,
    /// Why it went no further.
    pub stop: Stop,
}

impl Run {
    #[inline]
    pub(crate) fn of(report: &Report) -> Self {
        let stop = report.refusal.map_or(Stop::End, Stop::Refused);
        Self { rows: report.rows, bytes: report.bytes, stop }
    }

    /// The run as a result: rows and bytes, or the refusal.
    pub fn to_end(self) -> Result<(u64, u64), Refusal> {
        match self.stop {
            Stop::End => Ok((self.rows, self.bytes)),
            Stop::Refused(refusal) => Err(refusal),
        }
    }
}

/// A run over a stream up to a window's end, rows, bytes and places from the stream's start.
#[derive(Debug, Clone, Copy, PartialEq, Eq, Hash)]
pub struct WindowRun {
    /// The run so far.
    pub run: Run,
    /// Whether more bytes may change it: at the window's end, or where a row is cut.
    pub may_change: bool,
}

impl<'a> Format<'a> {
    /// Whether it is a format: the answer that every call gives before it reads a byte.
    ///
    /// ```
    /// use skiff::{FormatBuilder, Refusal, Schema, WireType};
    ///
    /// let number = Schema::leaf(WireType::Int64);
    /// let tables = FormatBuilder::new().table(Schema::tuple([number.clone().named("n")])).build()?;
    /// assert_eq!(tables.format().check(), Ok(()));
    ///
    /// let tables = FormatBuilder::new().table(Schema::tuple([number])).build()?;
    /// let nameless = Refusal::TableSchemaChildMissingName { index: 0, place: 1 };
    /// assert_eq!(tables.format().check(), Err(nameless));
    /// # Ok::<(), Box<dyn std::error::Error>>(())
    /// ```
    pub fn check(&self) -> Result<(), Refusal> {
        Report::of(|answer| sys::check_format(self, answer)).accepted()
    }

    /// A refusal of this format, with the table and the node that it is about.
    ///
    /// ```
    /// use skiff::{FormatBuilder, Schema, WireType};
    ///
    /// let bad = Schema::node(WireType::Int8, [Schema::leaf(WireType::Nothing)]).named("n");
    /// let tables = FormatBuilder::new().table(Schema::tuple([bad])).build()?;
    /// let refusal = tables.format().check().expect_err("an int8 has no children");
    /// assert_eq!(
    ///     tables.format().explain(refusal).to_string(),
    ///     r#"refused 4 UnexpectedChildren (type 2 int8, count 1) at 1: schema record 1, table 0, column "n""#
    /// );
    /// # Ok::<(), Box<dyn std::error::Error>>(())
    /// ```
    pub fn explain(&self, refusal: Refusal) -> Refused {
        Refused::of_schema(refusal, path::in_format(self, &refusal))
    }

    /// Passes the row at `position` of `input`; none where that is the input's end. Any position is taken
    /// for a row's start, one inside a row too: nothing in a stream marks where rows begin.
    #[inline]
    pub fn skip_row(
        &self,
        settings: &Settings,
        input: &[u8],
        position: usize,
    ) -> Result<Option<Extent>, Refusal> {
        let position = position as u64;
        Report::of(|answer| sys::skip(settings.into(), self, input, position, answer)).extent()
    }

    /// Decodes the row at `position` of `input`; none where that is the input's end. Its value records go
    /// to the start of `records` and the bytes of its blobs, int128 and int256 to the start of `payload`,
    /// and what is returned looks into both. What comes after them stays as it was, and at an end or on a
    /// refusal all of both does.
    ///
    /// Where there is too little room, [`Refusal::NoNodeRoom`] says how many records the row has, and
    /// otherwise [`Refusal::NoPayloadRoom`] how many payload bytes; [`Format::skip_row`] says both
    /// beforehand.
    ///
    /// ```
    /// use skiff::{FormatBuilder, Schema, Settings, WireType};
    ///
    /// let page = Schema::leaf(WireType::Uint8).named("page");
    /// let name = Schema::leaf(WireType::String32).optional().named("name");
    /// let tables = FormatBuilder::new().table(Schema::tuple([page, name])).build()?;
    /// let stream = [0, 0, 0x25, 1, 2, 0, 0, 0, b'h', b'i', 0, 0, 0x26, 0];
    ///
    /// let (mut records, mut payload) = ([0; 16 * 4], [0; 2]);
    /// let mut position = 0;
    /// let mut found = Vec::new();
    /// while let Some(row) = tables.format().next_row(
    ///     &Settings::default(),
    ///     &stream,
    ///     position,
    ///     &mut records,
    ///     &mut payload,
    /// )? {
    ///     let page = row.get("page").and_then(|page| page.as_u64());
    ///     let name = row.get("name").and_then(|name| name.as_some()?.as_str().map(str::to_owned));
    ///     found.push((page, name));
    ///     position += row.extent().bytes;
    /// }
    /// assert_eq!(found, [(Some(0x25), Some("hi".to_owned())), (Some(0x26), None)]);
    /// # Ok::<(), Box<dyn std::error::Error>>(())
    /// ```
    #[inline]
    pub fn next_row<'r>(
        &self,
        settings: &Settings,
        input: &[u8],
        position: usize,
        records: &'r mut [u8],
        payload: &'r mut [u8],
    ) -> Result<Option<Row<'r, 'a>>, Refusal> {
        let extent = self.decode(settings, input, position, records, payload)?;
        Ok(extent.map(|extent| Row::new(extent, *self, records, payload)))
    }

    /// The row's numbers; its records and payload stand at the starts of the two slices.
    #[inline]
    pub(crate) fn decode(
        &self,
        settings: &Settings,
        input: &[u8],
        position: usize,
        records: &mut [u8],
        payload: &mut [u8],
    ) -> Result<Option<Extent>, Refusal> {
        let position = position as u64;
        Report::of(|answer| sys::decode(settings.into(), self, input, position, records, payload, answer))
            .extent()
    }

    /// Passes row after row from the start of `input` until its end or the first refusal.
    #[inline]
    pub fn run(&self, settings: &Settings, input: &[u8]) -> Run {
        Run::of(&Report::of(|answer| sys::run(settings.into(), self, input, answer)))
    }

    /// [`Format::run`] over a stream that comes in windows: `rows` and `bytes` are those of the run so far,
    /// 0 and 0 at first, and `window` begins in the stream where these rows end. While the answer may change,
    /// go on with its rows and bytes, and with what the window has after them followed by more of the stream.
    #[inline]
    pub fn run_window(&self, settings: &Settings, rows: u64, bytes: u64, window: &[u8]) -> WindowRun {
        let report = Report::of(|answer| sys::run_window(settings.into(), self, window, rows, bytes, answer));
        WindowRun { run: Run::of(&report), may_change: report.table == 1 }
    }
}
