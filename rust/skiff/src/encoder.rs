//! Row after row, into a slice or a writer.

use std::fmt;
use std::io::Write;

use crate::{Error, Extent, RowBuilder, SchemaBlock, Settings, Value, ValueTable};

/// Where an encoder's rows go: [`ToSlice`] or [`ToWriter`].
pub trait Sink: sealed::Sink {}

mod sealed {
    use super::{Error, Extent, SchemaBlock, Settings, ValueTable};

    pub trait Sink {
        fn put(
            &mut self,
            block: &SchemaBlock,
            settings: &Settings,
            value: ValueTable,
        ) -> Result<Extent, Error>;
    }
}

/// Rows one after another into a slice.
pub struct ToSlice<'s> {
    output: &'s mut [u8],
    written: usize,
}

impl Sink for ToSlice<'_> {}

impl sealed::Sink for ToSlice<'_> {
    fn put(&mut self, block: &SchemaBlock, settings: &Settings, value: ValueTable) -> Result<Extent, Error> {
        let row = block.encode(settings, value, self.output, self.written)?;
        self.written += row.bytes;
        Ok(row)
    }
}

/// Rows one after another into a writer.
pub struct ToWriter<W> {
    writer: W,
    row: Vec<u8>,
}

impl<W: Write> Sink for ToWriter<W> {}

impl<W: Write> sealed::Sink for ToWriter<W> {
    fn put(&mut self, block: &SchemaBlock, settings: &Settings, value: ValueTable) -> Result<Extent, Error> {
        self.row.clear();
        let row = block.append(settings, value, &mut self.row)?;
        self.writer.write_all(&self.row)?;
        Ok(row)
    }
}

/// Writes rows of one schema, one after another. Each row begins with the tag of table 0.
///
/// ```
/// use skiff::{Encoder, Schema, Value, WireType};
///
/// let page = Schema::leaf(WireType::Uint8).named("page");
/// let name = Schema::leaf(WireType::String32).optional().named("name");
/// let tables = Schema::tuple([page, name]).tables()?;
///
/// let mut encoder = Encoder::to_writer(Vec::new(), &tables)?;
/// encoder.write_with(|row| row.value(0x25_u8).value(Some("hi")))?;
/// encoder.write_value(&Value::Tuple(vec![Value::Uint8(0x26), Value::variant(0, Value::Nothing)]))?;
/// assert_eq!(encoder.into_inner(), [0, 0, 0x25, 1, 2, 0, 0, 0, b'h', b'i', 0, 0, 0x26, 0]);
/// # Ok::<(), Box<dyn std::error::Error>>(())
/// ```
///
/// A row that is refused leaves no byte behind, in a slice and in a writer alike.
pub struct Encoder<'f, S> {
    block: SchemaBlock<'f>,
    settings: Settings,
    sink: S,
    rows: u64,
    bytes: u64,
    builder: RowBuilder,
}

impl<'f, 's> Encoder<'f, ToSlice<'s>> {
    /// Into a slice, from its start on. Refuses a block that is no table's schema. A row that no longer fits
    /// is refused by [`crate::Refusal::NoOutputRoom`].
    ///
    /// ```
    /// # use skiff::{Encoder, Refusal, Schema, WireType};
    /// let tables = Schema::tuple([Schema::leaf(WireType::Uint8).named("page")]).tables()?;
    /// let mut output = [0xEE; 5];
    /// let mut encoder = Encoder::to_slice(&mut output, &tables)?;
    /// encoder.write_with(|row| row.value(7_u8))?;
    /// let error = encoder.write_with(|row| row.value(8_u8)).expect_err("two bytes are left");
    /// assert_eq!(error.refusal(), Some(Refusal::NoOutputRoom { needed: 3, place: 3 }));
    /// assert_eq!(encoder.into_written(), [0, 0, 7]);
    /// assert_eq!(output, [0, 0, 7, 0xEE, 0xEE]);
    /// # Ok::<(), Box<dyn std::error::Error>>(())
    /// ```
    pub fn to_slice(output: &'s mut [u8], schema: impl Into<SchemaBlock<'f>>) -> Result<Self, Error> {
        Self::over(ToSlice { output, written: 0 }, schema.into())
    }

    /// The rows that were written.
    pub fn into_written(self) -> &'s mut [u8] {
        let ToSlice { output, written } = self.sink;
        &mut output[..written]
    }
}

impl<'f, W: Write> Encoder<'f, ToWriter<W>> {
    /// Into a writer, one `write_all` for each row; a `BufWriter` makes fewer calls of them. Refuses a block
    /// that is no table's schema.
    pub fn to_writer(writer: W, schema: impl Into<SchemaBlock<'f>>) -> Result<Self, Error> {
        Self::over(ToWriter { writer, row: Vec::new() }, schema.into())
    }

    /// Flushes the writer.
    pub fn flush(&mut self) -> Result<(), Error> {
        Ok(self.sink.writer.flush()?)
    }

    /// The writer. Nothing is held back here, but the writer itself may hold bytes: see [`Encoder::flush`].
    pub fn into_inner(self) -> W {
        self.sink.writer
    }
}

impl<'f, S: Sink> Encoder<'f, S> {
    fn over(sink: S, block: SchemaBlock<'f>) -> Result<Self, Error> {
        block.check().map_err(|refusal| block.explain(refusal))?;
        let (settings, builder) = (Settings::default(), RowBuilder::new());
        Ok(Self { block, settings, sink, rows: 0, bytes: 0, builder })
    }

    /// With all of these settings; in writing only the limits of string32 and yson32 count.
    #[must_use]
    pub fn with_settings(self, settings: Settings) -> Self {
        Self { settings, ..self }
    }

    /// With another limit of a string32.
    #[must_use]
    pub fn with_max_string32_bytes(self, bytes: u64) -> Self {
        let settings = self.settings.with_max_string32_bytes(bytes);
        self.with_settings(settings)
    }

    /// With another limit of a yson32.
    #[must_use]
    pub fn with_max_yson32_bytes(self, bytes: u64) -> Self {
        let settings = self.settings.with_max_yson32_bytes(bytes);
        self.with_settings(settings)
    }

    /// With another limit of every blob, string32 and yson32 alike.
    #[must_use]
    pub fn with_max_blob_bytes(self, bytes: u64) -> Self {
        let settings = self.settings.with_max_blob_bytes(bytes);
        self.with_settings(settings)
    }

    /// The schema that it writes by.
    pub fn schema(&self) -> SchemaBlock<'f> {
        self.block
    }

    /// How many rows were written, and how many bytes they are.
    pub fn written(&self) -> (u64, u64) {
        (self.rows, self.bytes)
    }

    /// Writes a row: a decoded one as it is, or what a [`RowBuilder`] made.
    pub fn write<'v>(&mut self, row: impl Into<ValueTable<'v>>) -> Result<Extent, Error> {
        let done = self.sink.put(&self.block, &self.settings, row.into())?;
        self.rows += 1;
        self.bytes += done.bytes as u64;
        Ok(done)
    }

    /// Writes a row that is a tree: a tuple of the columns.
    pub fn write_value(&mut self, row: &Value) -> Result<Extent, Error> {
        self.write_built(|builder| builder.set(row))
    }

    /// Writes a row whose columns `columns` puts, one after another.
    pub fn write_with(
        &mut self,
        columns: impl FnOnce(&mut RowBuilder) -> &mut RowBuilder,
    ) -> Result<Extent, Error> {
        self.write_built(|builder| columns(builder.clear()))
    }

    fn write_built(
        &mut self,
        build: impl FnOnce(&mut RowBuilder) -> &mut RowBuilder,
    ) -> Result<Extent, Error> {
        // The builder is put back whatever comes, for its memory.
        let mut builder = std::mem::take(&mut self.builder);
        build(&mut builder);
        let done = builder.finish().map_err(Error::from).and_then(|row| self.write(row));
        self.builder = builder;
        done
    }
}

/// What it has written; not what its buffers hold.
impl<S> fmt::Debug for Encoder<'_, S> {
    fn fmt(&self, out: &mut fmt::Formatter<'_>) -> fmt::Result {
        out.debug_struct("Encoder")
            .field("rows", &self.rows)
            .field("bytes", &self.bytes)
            .field("settings", &self.settings)
            .finish_non_exhaustive()
    }
}

impl fmt::Debug for ToSlice<'_> {
    fn fmt(&self, out: &mut fmt::Formatter<'_>) -> fmt::Result {
        write!(out, "ToSlice {{ {} of {} bytes }}", self.written, self.output.len())
    }
}

impl<W> fmt::Debug for ToWriter<W> {
    fn fmt(&self, out: &mut fmt::Formatter<'_>) -> fmt::Result {
        out.write_str("ToWriter")
    }
}
