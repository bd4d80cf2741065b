//! Indexes, and the calls that make one, check it and read a row by it.

use crate::report::Report;
use crate::sys::{self, INDEX_RECORD_BYTES};
use crate::{Extent, Format, Refusal, Row, Run, Settings};

/// What an index says of one row.
#[derive(Debug, Clone, Copy, PartialEq, Eq, Hash)]
pub struct IndexRecord {
    /// Where the row begins in the stream.
    pub offset: u64,
    /// How many bytes it has.
    pub length: u32,
    /// Which table it is of.
    pub table: u32,
}

impl IndexRecord {
    fn of(bytes: &[u8; INDEX_RECORD_BYTES]) -> Self {
        let [offset @ .., l0, l1, l2, l3, t0, t1, t2, t3] = *bytes;
        Self {
            offset: u64::from_le_bytes(offset),
            length: u32::from_le_bytes([l0, l1, l2, l3]),
            table: u32::from_le_bytes([t0, t1, t2, t3]),
        }
    }
}

/// An index that somebody else holds: for each row of a stream where it begins, so that a row is found by its
/// number without those before it. It has a record for each row, in order, and nothing beside them.
///
/// Nothing is checked here: an index is only as good as what it was built from, and [`Format::check_index`]
/// tells whether it is a stream's. Reading a row by a wrong one is refused, or gives a row that stands where the
/// record says.
///
/// ```
/// use skiff::{FormatBuilder, Index, IndexRecord, Refusal, Schema, Settings, Stop, WireType};
///
/// let page = Schema::leaf(WireType::Uint8).named("page");
/// let name = Schema::leaf(WireType::String32).optional().named("name");
/// let tables = FormatBuilder::new().table(Schema::tuple([page, name])).build()?;
/// let (format, settings) = (tables.format(), Settings::default());
/// let stream = b"\0\0\x25\x01\x02\0\0\0hi\0\0\x26\0";
///
/// // Where there is too little room, the rows say how much it takes.
/// let run = format.build_index(&settings, stream, &mut []);
/// assert_eq!((run.rows, run.stop), (2, Stop::Refused(Refusal::NoIndexRoom)));
///
/// let mut room = [0; 16 * 4];
/// let (rows, _) = format.build_index(&settings, stream, &mut room).to_end()?;
/// let index = Index::new(&room).first(rows);
/// assert_eq!(index.len(), 2);
/// assert_eq!(index.get(1), Some(IndexRecord { offset: 10, length: 4, table: 0 }));
/// assert_eq!(format.check_index(&settings, stream, index).to_end(), Ok((2, 14)));
///
/// let (mut records, mut payload) = ([0; 16 * 4], [0; 2]);
/// let row = format.indexed_row(&settings, stream, index, 1, &mut records, &mut payload)?;
/// assert_eq!(row.get("page").and_then(|page| page.as_u64()), Some(0x26));
/// # Ok::<(), Box<dyn std::error::Error>>(())
/// ```
#[derive(Debug, Clone, Copy, PartialEq, Eq, Hash, Default)]
pub struct Index<'i> {
    /// Index records, 16 bytes each; include/skiff.h has their layout.
    pub records: &'i [u8],
}

impl<'i> Index<'i> {
    /// The index of these records.
    pub const fn new(records: &'i [u8]) -> Self {
        Self { records }
    }

    /// How many rows it has: its whole records.
    pub const fn len(&self) -> u64 {
        (self.records.len() / INDEX_RECORD_BYTES) as u64
    }

    /// Whether it has none.
    pub const fn is_empty(&self) -> bool {
        self.len() == 0
    }

    /// What it says of a row, from 0 on. None where it has no such row.
    pub fn get(&self, row: u64) -> Option<IndexRecord> {
        let start = usize::try_from(row).ok()?.checked_mul(INDEX_RECORD_BYTES)?;
        self.records.get(start..)?.first_chunk().map(IndexRecord::of)
    }

    /// What it says of each row, in order.
    pub fn iter(&self) -> impl ExactSizeIterator<Item = IndexRecord> + use<'i> {
        let records = self.records.chunks_exact(INDEX_RECORD_BYTES);
        records.map(|record| IndexRecord::of(record.try_into().expect("a whole record")))
    }

    /// The index of the first rows alone, as many as these, or all where there are fewer: what a lent slice has
    /// behind the records that were written to it is no part of an index.
    #[must_use]
    pub fn first(&self, rows: u64) -> Self {
        let bytes = rows.min(self.len()) as usize * INDEX_RECORD_BYTES;
        Self { records: &self.records[..bytes] }
    }
}

impl<'i> From<&'i [u8]> for Index<'i> {
    fn from(records: &'i [u8]) -> Self {
        Self { records }
    }
}

impl<'i> From<&'i OwnedIndex> for Index<'i> {
    fn from(index: &'i OwnedIndex) -> Self {
        index.index()
    }
}

/// An index in memory of its own, which a [`crate::Decoder`] over a slice builds and extends;
/// [`OwnedIndex::index`] looks at it. One that was kept in a file is made `from` its bytes.
#[derive(Debug, Clone, PartialEq, Eq, Hash, Default)]
pub struct OwnedIndex {
    pub(crate) records: Vec<u8>,
}

impl OwnedIndex {
    /// The index.
    pub fn index(&self) -> Index<'_> {
        Index::new(&self.records)
    }

    /// Its records, as a file keeps them.
    pub fn into_records(self) -> Vec<u8> {
        self.records
    }
}

impl From<Vec<u8>> for OwnedIndex {
    fn from(records: Vec<u8>) -> Self {
        Self { records }
    }
}

/// The calls of an index, over lent slices and without allocation. [`crate::Decoder`] has each of them with
/// buffers of its own.
impl<'a> Format<'a> {
    /// [`Format::run`], and where that comes to the end, the records of its rows at the start of `index`, whose
    /// bytes after them stay. Refused, it has written nothing: where the run is refused, just as the run is, and
    /// after it by [`Refusal::NoIndexRoom`], with all rows in the answer, each of which takes 16 bytes.
    pub fn build_index(&self, settings: &Settings, input: &[u8], index: &mut [u8]) -> Run {
        Run::of(&Report::of(|answer| sys::build_index(settings.into(), self, input, index, answer)))
    }

    /// Whether it is the index of the stream, to the byte: [`Format::run`], and where that comes to the end and
    /// the index is another, [`Refusal::IndexMismatch`] with all rows and bytes in the answer.
    pub fn check_index<'i>(&self, settings: &Settings, input: &[u8], index: impl Into<Index<'i>>) -> Run {
        let records = index.into().records;
        Run::of(&Report::of(|answer| sys::check_index(settings.into(), self, input, records, answer)))
    }

    /// [`Format::build_index`] after rows were appended to a stream, where `index` has the records of its first
    /// `old` rows: they stay, and those of the rows after them are written behind them. More of them than the
    /// slice has are [`Refusal::Setting`]; after the run [`Refusal::IndexMismatch`] is for old records that are
    /// not those of the stream's first rows, and then [`Refusal::NoIndexRoom`] for too little room.
    ///
    /// ```
    /// # use skiff::{FormatBuilder, Index, Refusal, Schema, Settings, Stop, WireType};
    /// # let page = Schema::leaf(WireType::Uint8).named("page");
    /// # let tables = FormatBuilder::new().table(Schema::tuple([page])).build()?;
    /// # let (format, settings) = (tables.format(), Settings::default());
    /// let stream = [0, 0, 0x25, 0, 0, 0x26, 0, 0, 0x27];
    /// let mut room = [0; 16 * 4];
    /// let (old, _) = format.build_index(&settings, &stream[..3], &mut room).to_end()?;
    /// let (rows, bytes) = format.extend_index(&settings, &stream, old, &mut room).to_end()?;
    /// assert_eq!((old, rows, bytes), (1, 3, 9));
    /// let index = Index::new(&room).first(rows);
    /// assert!(index.iter().map(|record| record.offset).eq([0, 3, 6]));
    ///
    /// // It is no index of a stream that has lost rows.
    /// let run = format.extend_index(&settings, &stream[..6], rows, &mut room);
    /// assert_eq!(run.stop, Stop::Refused(Refusal::IndexMismatch));
    /// # Ok::<(), Box<dyn std::error::Error>>(())
    /// ```
    pub fn extend_index(&self, settings: &Settings, input: &[u8], old: u64, index: &mut [u8]) -> Run {
        Run::of(&Report::of(|answer| sys::extend_index(settings.into(), self, input, old, index, answer)))
    }

    /// Decodes the row of this number, from 0 on, by its record alone: [`Format::next_row`] where the record says
    /// that it begins, with an index that [`Format::check_index`] accepts the very row that is that many rows on.
    ///
    /// [`Refusal::NoSuchRow`] is for a number that the index does not have, [`Refusal::IndexMismatch`] for a
    /// record that leads behind the stream's end, or to a row of another table or length than it says.
    pub fn indexed_row<'r, 'i>(
        &self,
        settings: &Settings,
        input: &[u8],
        index: impl Into<Index<'i>>,
        row: u64,
        records: &'r mut [u8],
        payload: &'r mut [u8],
    ) -> Result<Row<'r, 'a>, Refusal> {
        let extent = self.decode_indexed(settings, input, index.into(), row, records, payload)?;
        Ok(Row::new(extent, *self, records, payload))
    }

    /// The row's numbers; its records and payload stand at the starts of the two slices.
    #[inline]
    pub(crate) fn decode_indexed(
        &self,
        settings: &Settings,
        input: &[u8],
        index: Index,
        row: u64,
        records: &mut [u8],
        payload: &mut [u8],
    ) -> Result<Extent, Refusal> {
        let call = |answer: &mut [u8; sys::ANSWER_SIZE]| {
            sys::decode_indexed(settings.into(), self, input, index.records, row, records, payload, answer)
        };
        Report::of(call).row()
    }
}

#[cfg(test)]
mod tests {
    use super::*;

    /// Two records, and a byte that is none.
    fn bytes() -> Vec<u8> {
        let mut bytes: Vec<u8> = (1..=16).collect();
        bytes.extend([0xFF; 8]);
        bytes.extend([0; 8]);
        bytes.push(7);
        bytes
    }

    #[test]
    fn a_record_is_taken_apart() {
        let bytes = bytes();
        let index = Index::new(&bytes);
        assert_eq!((index.len(), index.is_empty()), (2, false));
        let first = IndexRecord { offset: 0x0807_0605_0403_0201, length: 0x0C0B_0A09, table: 0x100F_0E0D };
        let second = IndexRecord { offset: u64::MAX, length: 0, table: 0 };
        assert_eq!((index.get(0), index.get(1)), (Some(first), Some(second)));
        assert!(index.iter().eq([first, second]));
        assert_eq!(index.iter().len(), 2);
        // Numbers that times 16 pass 64 bits, too.
        for none in [2, 3, 1 << 60, (1 << 60) + 1, u64::MAX] {
            assert_eq!(index.get(none), None);
        }
    }

    #[test]
    fn the_first_records_alone() {
        let bytes = bytes();
        let index = Index::from(&bytes[..]);
        assert_eq!(index.first(0), Index::default());
        assert!(index.first(0).is_empty());
        assert_eq!(index.first(1).records, &bytes[..16]);
        for rows in [2, 3, u64::MAX] {
            assert_eq!(index.first(rows).records, &bytes[..32]);
        }
    }

    #[test]
    fn a_file_of_records_is_kept_as_it_is() {
        let index = OwnedIndex::from(bytes());
        assert_eq!(Index::from(&index), index.index());
        assert_eq!(index.index().len(), 2);
        assert_eq!(index.into_records(), bytes());
    }
}
