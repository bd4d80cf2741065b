//! A case as it goes to the program under test, and the line that comes back.

use std::fmt;

use plain::settings::Settings;

pub mod op {
    pub const PARSE: u32 = 1;
    pub const FIXED_WIDTH: u32 = 2;
    pub const VALIDATE: u32 = 3;
    pub const ENCODER: u32 = 4;
    pub const FORMAT: u32 = 5;
    pub const TABLE_SCHEMA: u32 = 6;
    pub const SKIP: u32 = 7;
    pub const RUN: u32 = 8;
    /// Of the row at `a`, into slices whose lengths are the halves of `b`.
    pub const DECODE: u32 = 9;
    /// Of the value table that stands in `references` and `registry`, by the block whose first record and
    /// count are the halves of `a`, at position `b` of an output that is `input` before the call.
    pub const ENCODE: u32 = 10;
    /// Of the value table alone.
    pub const CHECK_TABLE: u32 = 11;
    /// Of the stream that stands behind the registry, whose length is the low half of `b`; `input` is the index
    /// before the call.
    pub const BUILD_INDEX: u32 = 12;
    pub const CHECK_INDEX: u32 = 13;
    /// From an old count of `a`.
    pub const EXTEND_INDEX: u32 = 14;
    /// Of row `a`, into slices whose lengths are the halves of `b`'s high half.
    pub const DECODE_INDEXED: u32 = 15;
}

/// Two numbers of 32 bits as one.
pub fn halves(numbers: [u64; 2]) -> u64 {
    let [low, high] = numbers.map(|number| u64::from(u32::try_from(number).expect("32 bits")));
    low | high << 32
}

pub const HEADER_BYTES: usize = 72;

/// The five strings of a case have at most this many bytes together.
pub const MOST_BYTES: usize = 4_194_304;

/// The program has room for so many bytes of a fifth string.
pub const MOST_INPUT: usize = 4096;

/// What every byte of a slice is that the program lends to a decoding call.
pub const UNTOUCHED: u8 = 0xA5;

#[derive(Debug, Clone, PartialEq, Eq, Default)]
pub struct Case {
    pub op: u32,
    pub a: u64,
    pub b: u64,
    /// The settings and the input are those of the reading and writing calls, and nothing elsewhere.
    pub node_charge: u64,
    pub max_string32_bytes: u64,
    pub max_yson32_bytes: u64,
    pub max_row_bytes: u64,
    pub records: Vec<u8>,
    pub names: Vec<u8>,
    pub references: Vec<u8>,
    pub registry: Vec<u8>,
    pub input: Vec<u8>,
}

impl Case {
    /// Whether it reads rows.
    pub fn reads(&self) -> bool {
        [op::SKIP, op::RUN, op::DECODE].contains(&self.op)
    }

    /// Whether it is about an index.
    pub fn is_of_index(&self) -> bool {
        (op::BUILD_INDEX..=op::DECODE_INDEXED).contains(&self.op)
    }

    pub fn settings(&self) -> Settings {
        let Case { node_charge, max_string32_bytes, max_yson32_bytes, max_row_bytes, .. } = *self;
        Settings { node_charge, max_string32_bytes, max_yson32_bytes, max_row_bytes }
    }

    pub fn with_settings(self, settings: Settings) -> Self {
        let Settings { node_charge, max_string32_bytes, max_yson32_bytes, max_row_bytes } = settings;
        Self { node_charge, max_string32_bytes, max_yson32_bytes, max_row_bytes, ..self }
    }

    /// Whether a string32 and a yson32 have the same limit, as they always do in the original.
    pub fn has_one_blob_limit(&self) -> bool {
        self.max_string32_bytes == self.max_yson32_bytes
    }

    /// How many bytes a decoding call is lent, for value records and for payload.
    pub fn lent(&self) -> [usize; 2] {
        [self.b as u32 as usize, (self.b >> 32) as usize]
    }

    pub fn with_lent(self, bytes: [usize; 2]) -> Self {
        Self { b: halves(bytes.map(|bytes| bytes as u64)), ..self }
    }

    pub fn strings(&self) -> [&Vec<u8>; 5] {
        [&self.records, &self.names, &self.references, &self.registry, &self.input]
    }

    /// How many bytes the five strings have together.
    pub fn bytes(&self) -> usize {
        self.strings().iter().map(|string| string.len()).sum()
    }

    pub fn write_to(&self, out: &mut Vec<u8>) {
        assert!(self.bytes() <= MOST_BYTES, "a case has more bytes than the protocol allows");
        out.extend(self.op.to_le_bytes());
        for string in self.strings() {
            out.extend((string.len() as u32).to_le_bytes());
        }
        let limits = [self.max_string32_bytes, self.max_yson32_bytes, self.max_row_bytes];
        for number in [self.a, self.b, self.node_charge].into_iter().chain(limits) {
            out.extend(number.to_le_bytes());
        }
        for string in self.strings() {
            out.extend_from_slice(string);
        }
    }

    /// The first case of `input` and what follows it; none where `input` holds no whole case.
    pub fn read_from(input: &[u8]) -> Option<(Case, &[u8])> {
        let (header, mut rest) = input.split_at_checked(HEADER_BYTES)?;
        let u32_at = |at: usize| u32::from_le_bytes(header[at..at + 4].try_into().unwrap());
        let u64_at = |at: usize| u64::from_le_bytes(header[at..at + 8].try_into().unwrap());
        let mut strings: [Vec<u8>; 5] = Default::default();
        for (at, string) in [4, 8, 12, 16, 20].into_iter().zip(&mut strings) {
            let (taken, left) = rest.split_at_checked(u32_at(at) as usize)?;
            *string = taken.to_vec();
            rest = left;
        }
        let [records, names, references, registry, input] = strings;
        let case = Case {
            op: u32_at(0),
            a: u64_at(24),
            b: u64_at(32),
            node_charge: u64_at(40),
            max_string32_bytes: u64_at(48),
            max_yson32_bytes: u64_at(56),
            max_row_bytes: u64_at(64),
            records,
            names,
            references,
            registry,
            input,
        };
        Some((case, rest))
    }
}

/// An answer line: number, place and the three values; for a run and for what is said of a whole index also its rows
/// and bytes, for a decoding call what both lent slices hold after it, and for an encoding one or one that writes an
/// index what its output holds.
#[derive(Debug, Clone, PartialEq, Eq, Default)]
pub struct Answer {
    pub number: u64,
    /// The table, where a row was skipped.
    pub place: u64,
    pub values: [u64; 3],
    pub run: Option<[u64; 2]>,
    pub lent: Option<[Vec<u8>; 2]>,
    pub output: Option<Vec<u8>>,
}

impl Answer {
    /// No type, or no fixed width.
    pub const NONE: Answer =
        Answer { number: 255, place: 0, values: [0, 0, 0], run: None, lent: None, output: None };

    pub fn accepted(values: [u64; 3]) -> Self {
        Self { values, ..Self::default() }
    }
}

pub fn hex(bytes: &[u8]) -> String {
    bytes.iter().map(|byte| format!("{byte:02x}")).collect()
}

impl fmt::Display for Answer {
    fn fmt(&self, formatter: &mut fmt::Formatter<'_>) -> fmt::Result {
        let [x, y, z] = self.values;
        write!(formatter, "{} {} {x} {y} {z}", self.number, self.place)?;
        if let Some([rows, bytes]) = self.run {
            write!(formatter, " {rows} {bytes}")?;
        }
        for slice in self.lent.iter().flatten().chain(&self.output) {
            write!(formatter, " {}", if slice.is_empty() { "-".to_owned() } else { hex(slice) })?;
        }
        Ok(())
    }
}

#[cfg(test)]
mod tests {
    use super::*;

    #[test]
    fn header_is_laid_out_as_agreed() {
        let case = Case {
            op: 6,
            a: 0x0102_0304_0506_0708,
            b: u64::MAX,
            node_charge: 48,
            max_string32_bytes: 3 << 32,
            max_yson32_bytes: 4 << 40,
            max_row_bytes: 5 << 56,
            records: vec![9],
            names: vec![8, 8],
            references: vec![7, 7, 7],
            registry: vec![6, 6, 6, 6],
            input: vec![5],
        };
        let mut bytes = Vec::new();
        case.write_to(&mut bytes);
        let mut expected = vec![6, 0, 0, 0, 1, 0, 0, 0, 2, 0, 0, 0, 3, 0, 0, 0, 4, 0, 0, 0, 1, 0, 0, 0];
        expected.extend([8, 7, 6, 5, 4, 3, 2, 1]);
        expected.extend([255; 8]);
        expected.extend([48, 0, 0, 0, 0, 0, 0, 0]);
        expected.extend([0, 0, 0, 0, 3, 0, 0, 0]);
        expected.extend([0, 0, 0, 0, 0, 4, 0, 0]);
        expected.extend([0, 0, 0, 0, 0, 0, 0, 5]);
        expected.extend([9, 8, 8, 7, 7, 7, 6, 6, 6, 6, 5]);
        assert_eq!(bytes, expected);
        bytes.extend([1, 2, 3]);
        assert_eq!(Case::read_from(&bytes), Some((case, &[1, 2, 3][..])));
        assert_eq!(Case::read_from(&bytes[..82]), None);
        assert_eq!(Case::read_from(&bytes[..71]), None);
    }

    #[test]
    fn lent_lengths_are_the_halves_of_b() {
        let case = Case { op: op::DECODE, ..Case::default() }.with_lent([0x0102, 0x0304]);
        let mut bytes = Vec::new();
        case.write_to(&mut bytes);
        assert_eq!(bytes[32..40], [2, 1, 0, 0, 4, 3, 0, 0]);
        assert_eq!(case.lent(), [0x0102, 0x0304]);
    }

    #[test]
    fn an_answer_is_numbers_with_one_blank_between() {
        let answer = Answer { number: 5, place: 3, values: [17, 256, 255], ..Answer::default() };
        assert_eq!(answer.to_string(), "5 3 17 256 255");
        assert_eq!(Answer { run: Some([7, 8]), ..answer.clone() }.to_string(), "5 3 17 256 255 7 8");
        let lent = Some([vec![0xA5, 7], vec![]]);
        assert_eq!(Answer { lent, ..answer.clone() }.to_string(), "5 3 17 256 255 a507 -");
        assert_eq!(Answer { output: Some(vec![0x5C]), ..answer }.to_string(), "5 3 17 256 255 5c");
        assert_eq!(Answer::NONE.to_string(), "255 0 0 0 0");
    }
}
