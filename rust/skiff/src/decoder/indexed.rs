//! Rows of a slice by their numbers, through an index.

use std::fmt;
use std::iter::FusedIterator;

use super::Decoder;
use crate::error::{Refused, Where};
use crate::source::grow;
use crate::sys::INDEX_RECORD_BYTES;
use crate::{Error, FromSlice, Index, OwnedIndex, OwnedRow, Refusal, Row, Run, Settings, Stop};

/// Rows by their numbers, from 0 on. None of these moves the decoder: it goes on from row to row as before.
impl<'f, 's> Decoder<'f, FromSlice<'s>> {
    /// The index of the whole stream, wherever the decoder stands. The library is asked twice: first without room,
    /// so that it counts the rows.
    ///
    /// ```
    /// # use skiff::{Decoder, FormatBuilder, IndexRecord, Schema, WireType};
    /// # let page = Schema::leaf(WireType::Uint8).named("page");
    /// # let tables = FormatBuilder::new().table(Schema::tuple([page])).build()?;
    /// let stream = [0, 0, 0x25, 0, 0, 0x26];
    /// let index = Decoder::from_slice(&stream, &tables)?.build_index()?;
    /// assert_eq!(index.index().len(), 2);
    /// assert_eq!(index.index().get(1), Some(IndexRecord { offset: 3, length: 3, table: 0 }));
    ///
    /// let cut = Decoder::from_slice(&stream[..5], &tables)?.build_index();
    /// let words = "refused 12 Truncated (context 8 uint8) at 5: byte 5, row 1, column \"page\"";
    /// assert_eq!(cut.map_err(|error| error.to_string()), Err(words.to_owned()));
    /// # Ok::<(), Box<dyn std::error::Error>>(())
    /// ```
    pub fn build_index(&self) -> Result<OwnedIndex, Error> {
        let mut index = OwnedIndex::default();
        self.fill(&mut index, |room| self.format.build_index(&self.settings, self.source.0, room))?;
        Ok(index)
    }

    /// Refuses what is not the index of the stream, to the byte.
    pub fn check_index<'i>(&self, index: impl Into<Index<'i>>) -> Result<(), Error> {
        let run = self.format.check_index(&self.settings, self.source.0, index);
        run.to_end().map_err(|refusal| self.refused_at(run.bytes as usize, run.rows, refusal))?;
        Ok(())
    }

    /// Adds the records of rows that were appended to the stream since the index was built. Refused, the index is
    /// as it was; of one that ends in a part of a record, as a file that was not written whole may, the whole
    /// records count, and the part goes.
    ///
    /// ```
    /// # use skiff::{Decoder, FormatBuilder, Refusal, Schema, WireType};
    /// # let page = Schema::leaf(WireType::Uint8).named("page");
    /// # let tables = FormatBuilder::new().table(Schema::tuple([page])).build()?;
    /// let mut stream = vec![0, 0, 0x25, 0, 0, 0x26];
    /// let mut index = Decoder::from_slice(&stream, &tables)?.build_index()?;
    /// stream.extend([0, 0, 0x27]);
    /// Decoder::from_slice(&stream, &tables)?.extend_index(&mut index)?;
    /// assert_eq!(index.index().len(), 3);
    ///
    /// let shorter = Decoder::from_slice(&stream[..6], &tables)?.extend_index(&mut index);
    /// assert_eq!(shorter.expect_err("a row less").refusal(), Some(Refusal::IndexMismatch));
    /// # Ok::<(), Box<dyn std::error::Error>>(())
    /// ```
    pub fn extend_index(&self, index: &mut OwnedIndex) -> Result<(), Error> {
        let old = index.index().len();
        self.fill(index, |room| self.format.extend_index(&self.settings, self.source.0, old, room))
    }

    /// Asks with the room at hand, and for want of room once more with room for all rows. A refusal for want of
    /// room comes after the run and has its rows, so that nothing is gained by a run beforehand; and where the room
    /// is enough, as where nothing was appended, one call does.
    fn fill(&self, index: &mut OwnedIndex, call: impl Fn(&mut [u8]) -> Run) -> Result<(), Error> {
        let before = index.records.len();
        let mut run = call(&mut index.records);
        let needed = run.rows.saturating_mul(INDEX_RECORD_BYTES as u64);
        // The library would not look at more.
        if run.stop == Stop::Refused(Refusal::NoIndexRoom) && needed <= Settings::MOST_BYTES {
            grow(&mut index.records, needed)?;
            run = call(&mut index.records);
        }
        let (kept, answer) = match run.stop {
            Stop::End => (needed as usize, Ok(())),
            Stop::Refused(refusal) => (before, Err(self.refused_at(run.bytes as usize, run.rows, refusal))),
        };
        index.records.truncate(kept);
        Ok(answer?)
    }

    /// The row of this number, by its record of the index alone; [`crate::Format::indexed_row`] says when it is
    /// refused.
    ///
    /// ```
    /// # use skiff::{Decoder, FormatBuilder, Schema, WireType};
    /// # let page = Schema::leaf(WireType::Uint8).named("page");
    /// # let tables = FormatBuilder::new().table(Schema::tuple([page])).build()?;
    /// let mut decoder = Decoder::from_slice(&[0, 0, 0x25, 0, 0, 0x26], &tables)?;
    /// let index = decoder.build_index()?;
    /// let row = decoder.indexed_row(&index, 1)?;
    /// assert_eq!(row.get("page").and_then(|page| page.as_u64()), Some(0x26));
    ///
    /// let error = decoder.indexed_row(&index, 2).expect_err("there are two");
    /// assert_eq!(error.to_string(), "refused 32 NoSuchRow at 0: row 2");
    /// # Ok::<(), Box<dyn std::error::Error>>(())
    /// ```
    pub fn indexed_row<'i>(&mut self, index: impl Into<Index<'i>>, row: u64) -> Result<Row<'_, 'f>, Error> {
        let index = index.into();
        let extent = loop {
            let Self { format, settings, source, records, payload, .. } = self;
            match format.decode_indexed(settings, source.0, index, row, records, payload) {
                Ok(extent) => break extent,
                Err(refusal) if self.makes_room(&refusal)? => {}
                Err(refusal) => return Err(self.refused_by_index(index, row, refusal).into()),
            }
        };
        Ok(Row::new(extent, self.format, &self.records, &self.payload))
    }

    fn refused_by_index(&self, index: Index, row: u64, refusal: Refusal) -> Refused {
        let offset = index.get(row).and_then(|record| usize::try_from(record.offset).ok());
        match refusal {
            Refusal::IndexMismatch | Refusal::NoSuchRow => {
                Refused { refusal, path: String::new(), at: Where::Indexed(row) }
            }
            _ => self.refused_at(offset.unwrap_or_default(), row, refusal),
        }
    }

    /// The rows of these numbers, in their order, each in memory of its own. Each is found by itself: one that is
    /// refused keeps none of the others back.
    ///
    /// ```
    /// # use skiff::{Decoder, FormatBuilder, Schema, WireType};
    /// # let page = Schema::leaf(WireType::Uint8).named("page");
    /// # let tables = FormatBuilder::new().table(Schema::tuple([page])).build()?;
    /// let mut decoder = Decoder::from_slice(&[0, 0, 0x25, 0, 0, 0x26, 0, 0, 0x27], &tables)?;
    /// let index = decoder.build_index()?;
    /// let mut pages = |rows: &mut dyn Iterator<Item = u64>| -> Result<Vec<_>, skiff::Error> {
    ///     let rows = decoder.indexed_rows(&index, rows);
    ///     rows.map(|row| Ok(row?.row().get("page").and_then(|page| page.as_u64()))).collect()
    /// };
    /// assert_eq!(pages(&mut (1..3))?, [Some(0x26), Some(0x27)]);
    /// assert_eq!(pages(&mut [2, 0, 2].into_iter())?, [Some(0x27), Some(0x25), Some(0x27)]);
    /// # Ok::<(), Box<dyn std::error::Error>>(())
    /// ```
    pub fn indexed_rows<'d, 'i, N: IntoIterator<Item = u64>>(
        &'d mut self,
        index: impl Into<Index<'i>>,
        rows: N,
    ) -> IndexedRows<'d, 'f, 's, 'i, N::IntoIter> {
        IndexedRows { decoder: self, index: index.into(), numbers: rows.into_iter() }
    }
}

/// Rows by their numbers, those that are left of them.
pub struct IndexedRows<'d, 'f, 's, 'i, N> {
    decoder: &'d mut Decoder<'f, FromSlice<'s>>,
    index: Index<'i>,
    numbers: N,
}

impl<'f, N: Iterator<Item = u64>> Iterator for IndexedRows<'_, 'f, '_, '_, N> {
    type Item = Result<OwnedRow<'f>, Error>;

    fn next(&mut self) -> Option<Self::Item> {
        let row = self.numbers.next()?;
        Some(self.decoder.indexed_row(self.index, row).map(|row| row.to_owned_row()))
    }

    fn size_hint(&self) -> (usize, Option<usize>) {
        self.numbers.size_hint()
    }
}

impl<N: ExactSizeIterator<Item = u64>> ExactSizeIterator for IndexedRows<'_, '_, '_, '_, N> {}

impl<N: FusedIterator<Item = u64>> FusedIterator for IndexedRows<'_, '_, '_, '_, N> {}

impl<N> fmt::Debug for IndexedRows<'_, '_, '_, '_, N> {
    fn fmt(&self, out: &mut fmt::Formatter<'_>) -> fmt::Result {
        out.debug_struct("IndexedRows").field("decoder", self.decoder).finish_non_exhaustive()
    }
}
