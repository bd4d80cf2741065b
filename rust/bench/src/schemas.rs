//! What is timed: the client's rows, and schemas that each lean on one part of the walk.

use diff::case::Case;
use diff::generate::rows::edges::{schema_a, schema_b};
use diff::generate::rows::values::{write_row, Taste};
use diff::plan::{inline, lay_out, Plan};
use diff::rng::Rng;

/// The client's rows: names of 0 to 40 bytes, and now and then none.
const CLIENT: Taste = Taste {
    blob_bytes: |rng| rng.below(41),
    items: |rng| rng.below(9),
    tag: |rng, children| match children {
        2 => usize::from(!rng.one_in(42)),
        _ => rng.below(children),
    },
};

/// All tags alike, for schemas in which none stands for a missing value.
const EVEN: Taste = Taste { tag: Rng::below, ..CLIENT };

pub struct Timed {
    pub name: &'static str,
    taste: &'static Taste,
    plans: fn() -> Vec<Plan>,
}

pub const ALL: [Timed; 6] = [
    Timed { name: "A: the client's rows, blobs of 0 to 40 bytes", taste: &CLIENT, plans: schema_a },
    Timed { name: "B: repeated scalars", taste: &EVEN, plans: schema_b },
    Timed { name: "C: ten columns, half of them optional", taste: &CLIENT, plans: ten_columns },
    Timed { name: "D: nested tuples", taste: &EVEN, plans: nested_tuples },
    Timed { name: "E: repeated tuples (string32, uint64)", taste: &EVEN, plans: repeated_tuples },
    Timed { name: "F: variant16 with int128", taste: &EVEN, plans: variants },
];

/// A ledger's table: eight int256 columns and two int128, and no tag but its own.
pub const LEDGER: Timed =
    Timed { name: "ledger: eight int256, two int128", taste: &EVEN, plans: wide_integers };

fn leaves(codes: &[u8]) -> Vec<Plan> {
    codes.iter().map(|code| Plan::new(*code, 0)).collect()
}

/// uint8, int64?, string32, double?, uint32, int16?, boolean, string32?, uint64, int32?
fn ten_columns() -> Vec<Plan> {
    let types = [8, 5, 13, 12, 10, 3, 1, 13, 11, 4];
    let mut plans = vec![Plan::new(19, 10)];
    let mut below = Vec::new();
    for (index, code) in types.into_iter().enumerate() {
        if index % 2 == 0 {
            plans.push(Plan::named(code, 0, b"c"));
        } else {
            plans.push(Plan::named(15, 2, b"c"));
            below.extend(leaves(&[0, code]));
        }
    }
    plans.extend(below);
    plans
}

/// tuple("a" tuple(uint8, tuple(int16, tuple(int32, uint8))), "b" tuple(uint64, tuple(double))).
fn nested_tuples() -> Vec<Plan> {
    let mut plans = vec![Plan::new(19, 2), Plan::named(19, 2, b"a"), Plan::named(19, 2, b"b")];
    plans.extend([Plan::new(8, 0), Plan::new(19, 2), Plan::new(11, 0), Plan::new(19, 1)]);
    plans.extend([Plan::new(3, 0), Plan::new(19, 2), Plan::new(12, 0)]);
    plans.extend(leaves(&[4, 8]));
    plans
}

/// tuple("r" repeated_variant8(tuple(string32, uint64))).
fn repeated_tuples() -> Vec<Plan> {
    let mut plans = vec![Plan::new(19, 1), Plan::named(17, 1, b"r"), Plan::new(19, 2)];
    plans.extend(leaves(&[13, 11]));
    plans
}

/// tuple("k" variant16(int128, string32, uint64), "m" int128, "n" variant16(nothing, int128)).
fn variants() -> Vec<Plan> {
    let mut plans = vec![Plan::new(19, 3), Plan::named(16, 3, b"k"), Plan::named(6, 0, b"m")];
    plans.push(Plan::named(16, 2, b"n"));
    plans.extend(leaves(&[6, 13, 11, 0, 6]));
    plans
}

/// tuple("c" int256, ... eight of them, "c" int128, "c" int128).
fn wide_integers() -> Vec<Plan> {
    let columns = [7, 7, 7, 7, 7, 7, 7, 7, 6, 6];
    let mut plans = vec![Plan::new(19, columns.len() as u32)];
    plans.extend(columns.map(|code| Plan::named(code, 0, b"c")));
    plans
}

impl Timed {
    /// A format of this one table, and a stream of so many of its rows.
    pub fn stream(&self, rows: u64) -> Case {
        let mut case = Case::default();
        let block = lay_out(&(self.plans)(), &mut case.records, &mut case.names);
        case.references.extend(inline(block));
        let mut rng = Rng::new(88);
        let mut input = Vec::new();
        for _ in 0..rows {
            write_row(&mut rng, self.taste, (0, block), &case.records, &mut input);
        }
        Case { input, ..case }
    }
}
