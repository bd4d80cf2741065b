//! Rows that a format accepts, written down by its flat tables, with what they cost.

use plain::format::table_block;
use plain::tables::{schema_record, Block};
use plain::wire_type::{fixed_width, STRING32, YSON32};

use super::{either, usual};
use crate::case::{op, Case};
use crate::generate::formats::{format, random_name};
use crate::generate::trees::with_blobs;
use crate::judge::tables;
use crate::original;
use crate::rng::Rng;

/// What a row costs: nodes, and the bytes of its blobs, of which the longest of each type.
#[derive(Debug, Clone, Copy, Default, PartialEq, Eq)]
pub struct Cost {
    pub nodes: u64,
    pub blob_bytes: u64,
    pub longest_string32: u64,
    pub longest_yson32: u64,
}

impl Cost {
    pub fn longest(&self) -> u64 {
        self.longest_string32.max(self.longest_yson32)
    }

    pub fn under(&self, node_charge: u64) -> u64 {
        self.nodes * node_charge + self.blob_bytes
    }
}

/// How a row's values are drawn.
pub struct Taste {
    pub blob_bytes: fn(&mut Rng) -> usize,
    /// Elements of a list.
    pub items: fn(&mut Rng) -> usize,
    /// Which of so many children a tag chooses.
    pub tag: fn(&mut Rng, usize) -> usize,
}

/// Short rows that have a bit of everything.
pub const SHORT: Taste = Taste {
    blob_bytes: |rng| match rng.below(20) {
        0 => rng.between(200, 300),
        1..=4 => 0,
        _ => rng.between(1, 9),
    },
    items: |rng| rng.below(4),
    tag: Rng::below,
};

/// Doubles that are not kept where they go through a float or are told apart by comparing: quiet and
/// signalling NaNs of either sign, infinities, a negative zero, the smallest and the largest subnormal.
pub const DOUBLES: [u64; 11] = [
    0x7FF8_0000_0000_0000,
    0xFFF8_0000_0000_0001,
    0x7FFF_FFFF_FFFF_FFFF,
    0x7FF0_0000_0000_0001,
    0x7FF4_0000_0000_0000,
    0xFFF7_FFFF_FFFF_FFFF,
    0x7FF0_0000_0000_0000,
    0xFFF0_0000_0000_0000,
    0x8000_0000_0000_0000,
    0x0000_0000_0000_0001,
    0x800F_FFFF_FFFF_FFFF,
];

/// So many nodes are written before lists are kept empty.
const MANY_NODES: u64 = 200;

struct Writer<'a> {
    rng: &'a mut Rng,
    taste: &'a Taste,
    records: &'a [u8],
    block: Block,
    out: &'a mut Vec<u8>,
    cost: Cost,
}

impl Writer<'_> {
    fn node(&mut self, index: u64) {
        self.cost.nodes += 1;
        let record = schema_record(self.records, self.block.first + index);
        let child = |tag: usize| record.first_child + tag as u64;
        match record.code {
            code @ (STRING32 | YSON32) => self.blob(code),
            15 | 16 => {
                // Without children no tag is right; some tag is written all the same.
                let tag = (self.taste.tag)(self.rng, (record.child_count as usize).max(1));
                self.tag(record.code, tag);
                if record.child_count > 0 {
                    self.node(child(tag));
                }
            }
            17 | 18 => {
                let room = self.cost.nodes < MANY_NODES && record.child_count > 0;
                let items = if room { (self.taste.items)(self.rng) } else { 0 };
                for _ in 0..items {
                    let tag = (self.taste.tag)(self.rng, record.child_count as usize);
                    self.tag(record.code, tag);
                    self.node(child(tag));
                }
                self.tag(record.code, 65_535);
            }
            19 => (0..record.child_count).for_each(|offset| self.node(record.first_child + offset)),
            12 if self.rng.one_in(2) => {
                let bits = self.rng.pick(&DOUBLES);
                self.out.extend(bits.to_le_bytes());
            }
            code => {
                let width = fixed_width(u64::from(code)).expect("the rest have a fixed width");
                for _ in 0..width {
                    let byte = *self.rng.pick(&[0, 1, 2, 0x7F, 0x80, 0xD1, 0xFE, 0xFF]);
                    self.out.push(byte);
                }
            }
        }
    }

    fn tag(&mut self, code: u8, tag: usize) {
        let bytes = (tag as u16).to_le_bytes();
        self.out.extend_from_slice(if code == 15 || code == 17 { &bytes[..1] } else { &bytes });
    }

    fn blob(&mut self, code: u8) {
        let length = (self.taste.blob_bytes)(self.rng);
        self.out.extend((length as u32).to_le_bytes());
        for _ in 0..length {
            let byte = self.rng.byte();
            self.out.push(byte);
        }
        self.cost.blob_bytes += length as u64;
        let longest = match code {
            STRING32 => &mut self.cost.longest_string32,
            _ => &mut self.cost.longest_yson32,
        };
        *longest = (*longest).max(length as u64);
    }
}

/// Appends a row of a table whose schema is a block of a record table, and says what it costs.
pub fn write_row(
    rng: &mut Rng,
    taste: &Taste,
    (table, block): (u16, Block),
    records: &[u8],
    out: &mut Vec<u8>,
) -> Cost {
    out.extend(table.to_le_bytes());
    let mut writer = Writer { rng, taste, records, block, out, cost: Cost::default() };
    writer.node(0);
    writer.cost
}

/// A stream of a format's rows: where each starts, and what it costs.
#[derive(Debug, Default)]
pub struct Stream {
    pub starts: Vec<u64>,
    pub costs: Vec<Cost>,
}

/// Fills a good format's input with some rows of its tables.
pub fn fill(rng: &mut Rng, case: &mut Case, rows: usize) -> Stream {
    let mut stream = Stream::default();
    let tables_met = (case.references.len() / 16).min(65_536);
    let mut input = Vec::new();
    for _ in 0..rows {
        let table = rng.below(tables_met);
        let block = table_block(&tables(case), table as u64).expect("the format is good");
        stream.starts.push(input.len() as u64);
        let table = (table as u16, block);
        stream.costs.push(write_row(rng, &SHORT, table, &case.records, &mut input));
    }
    case.input = input;
    stream
}

/// A good format with usual settings.
pub fn good_format(rng: &mut Rng) -> Case {
    loop {
        // So seldom wrong that it is drawn again where it is.
        let case = format(rng, 1_000, &mut random_name).with_settings(usual());
        if original::ask_format(&case).is_some_and(|said| said.number == 0) {
            return case;
        }
    }
}

/// A call over a few rows of a format.
fn with_rows(rng: &mut Rng, mut case: Case) -> (Case, Stream) {
    let rows = [0, 1, 1, 1, 2, 3, 5][rng.below(7)];
    let stream = fill(rng, &mut case, rows);
    (Case { op: either(rng), ..case }, stream)
}

/// A good format with usual settings and a few rows.
pub fn good(rng: &mut Rng) -> (Case, Stream) {
    let case = good_format(rng);
    with_rows(rng, case)
}

/// The same with many blobs of both types.
pub fn good_with_blobs(rng: &mut Rng) -> (Case, Stream) {
    let case = good_format(rng);
    let case = with_blobs(rng, case);
    with_rows(rng, case)
}

/// Good rows, skipped from the start of one of them or from the end.
pub fn random_rows(rng: &mut Rng) -> Case {
    let (mut case, stream) = good(rng);
    if case.op == op::SKIP {
        let starts = stream.starts.len();
        let chosen = rng.below(starts + 1);
        case.a = stream.starts.get(chosen).copied().unwrap_or(case.input.len() as u64);
    }
    case
}

#[cfg(test)]
mod tests {
    use super::*;
    use crate::judge::plain_report;
    use plain::settings::Settings;

    /// Rows are accepted at what they are said to cost and refused at one less, but for those of a
    /// variant without children, which can't be written.
    #[test]
    fn rows_cost_what_is_said() {
        let mut accepted = 0;
        for number in 0..3_000 {
            let (case, stream) = good(&mut Rng::for_case(5, number));
            for (start, cost) in stream.starts.iter().zip(&stream.costs) {
                let at = |max_row_bytes| {
                    let settings = Settings {
                        max_row_bytes,
                        max_string32_bytes: cost.longest_string32,
                        max_yson32_bytes: cost.longest_yson32,
                        ..usual()
                    };
                    let case = Case { op: op::SKIP, a: *start, ..case.clone() }.with_settings(settings);
                    plain_report(&case).number
                };
                let limit = cost.under(usual().node_charge);
                match at(limit) {
                    0 => assert_eq!(at(limit - 1), 13),
                    number => assert_eq!(number, 17),
                }
                accepted += u64::from(at(limit) == 0);
            }
        }
        assert!(accepted > 3_000, "{accepted}");
    }
    #[test]
    fn every_double_is_drawn() {
        let mut left = DOUBLES.map(u64::to_le_bytes).to_vec();
        for number in 0..3_000 {
            let (case, _) = good(&mut Rng::for_case(5, number));
            left.retain(|bytes| !case.input.windows(8).any(|window| window == bytes));
        }
        assert!(left.is_empty(), "{left:02x?}");
    }
}
