//! The calls of the format side.

use crate::answer::Refusal;
use crate::format::{table_schema, validate_encoder, validate_format, validate_schema};
use crate::tables::FormatTables;
use crate::wire_type::{fixed_width, parse, NAMES};

use super::{a, block, records, words, Fields};

fn refused(number: u64, place: u64, carried: [u64; 3]) -> Result<(), Refusal> {
    Err(Refusal::at(number, place, carried))
}

#[test]
fn schema_a_is_accepted_by_every_check() {
    let (table, names) = a();
    assert_eq!(validate_schema(&table, &names, block(0, 5)), Ok(()));
    assert_eq!(validate_encoder(&table, &names, block(0, 5)), Ok(()));
    let references = words(&[[0, 0, 5, 0]]);
    let tables = FormatTables { records: &table, names: &names, references: &references, registry: &[] };
    assert_eq!(validate_format(&tables), Ok(()));
    assert_eq!(table_schema(&tables, 0), Ok(block(0, 5)));
    assert_eq!(table_schema(&tables, 1), Err(Refusal::at(11, 0, [1, 0, 0])));
    assert_eq!(table_schema(&tables, u64::MAX), Err(Refusal::at(11, 0, [u64::MAX, 0, 0])));
}

#[test]
fn each_form_is_refused() {
    let leaf = (0, 0, 0, 0, 0, 0);
    let bad: &[(&[Fields], u64, u64)] = &[
        (&[(20, 0, 0, 0, 0, 0)], 0, 1),       // no such code
        (&[(0, 2, 0, 0, 0, 0)], 0, 1),        // flag over 1
        (&[(0, 0, 1, 0, 0, 0)], 0, 1),        // unnamed with a length
        (&[(0, 0, 0, 1, 0, 0)], 0, 1),        // unnamed with a start
        (&[(0, 1, 3, 0, 0, 0)], 0, 1),        // span past the store
        (&[(0, 1, 0, 3, 0, 0)], 0, 1),        // empty span past the store
        (&[(0, 0, 0, 0, 1, 0)], 0, 1),        // childless, first child set
        (&[leaf, (19, 0, 0, 0, 1, 1)], 0, 2), // its own child
        (&[(19, 0, 0, 0, 2, 1), leaf], 0, 2), // not 1 + earlier counts
        (&[(19, 0, 0, 0, 1, 2), leaf], 0, 2), // fewer records than children
        (&[leaf, leaf], 0, 2),                // more records than children
        (&[leaf], 0, 0),                      // no record
        (&[leaf], 1, 1),                      // past the end
        (&[leaf], 1 << 32, 1),                // not cut to 32 bits
        (&[leaf], u64::MAX, 1),
        (&[leaf], 0, (1 << 32) + 1),
        (&[leaf], 1, u64::MAX),
    ];
    for (rows, first, count) in bad {
        let answer = validate_schema(&records(rows), b"ab", block(*first, *count));
        assert_eq!(answer, refused(2, 0, [0; 3]), "{rows:?} {first} {count}");
    }
    let good: &[(&[Fields], u64, u64)] = &[
        (&[(0, 1, 2, 0, 0, 0)], 0, 1),        // span to the store's end
        (&[(0, 1, 0, 2, 0, 0)], 0, 1),        // empty span at the store's end
        (&[(20, 7, 1, 1, 1, 1), leaf], 1, 1), // records in no block are not looked at
    ];
    for (rows, first, count) in good {
        assert_eq!(validate_schema(&records(rows), b"ab", block(*first, *count)), Ok(()));
    }
    let mut ragged = records(&[leaf]);
    ragged.push(0);
    assert_eq!(validate_schema(&ragged, b"", block(0, 1)), refused(2, 0, [0; 3]));
}

fn chain(levels: u32) -> Vec<u8> {
    let rows: Vec<Fields> = (0..levels)
        .map(|i| if i + 1 < levels { (19, 0, 0, 0, i + 1, 1) } else { (1, 0, 0, 0, 0, 0) })
        .collect();
    records(&rows)
}

#[test]
fn depth_is_at_most_64_and_comes_before_the_rules() {
    assert_eq!(validate_schema(&chain(64), b"", block(0, 64)), Ok(()));
    let mut deep = chain(65);
    assert_eq!(validate_schema(&deep, b"", block(0, 65)), refused(3, 0, [0; 3]));
    deep[0] = 1; // also a leaf with a child: depth still wins
    assert_eq!(validate_schema(&deep, b"", block(0, 65)), refused(3, 0, [0; 3]));
    deep[16] = 20; // also a bad form: that wins over depth
    assert_eq!(validate_schema(&deep, b"", block(0, 65)), refused(2, 0, [0; 3]));
}

fn fan(code: u8, children: u32) -> Vec<u8> {
    let mut rows = vec![(code, 0, 0, 0, u32::from(children > 0), children)];
    rows.extend((0..children).map(|_| (0, 0, 0, 0, 0, 0)));
    records(&rows)
}

#[test]
fn child_counts_on_both_sides_of_each_edge() {
    for (code, maximum) in [(15, 256), (16, 65_536), (17, 255), (18, 65_535)] {
        for count in [0, 1, maximum] {
            let table = fan(code, count);
            assert_eq!(validate_schema(&table, b"", block(0, u64::from(count) + 1)), Ok(()));
        }
        let over = u64::from(maximum) + 1;
        assert_eq!(
            validate_schema(&fan(code, maximum + 1), b"", block(0, over + 1)),
            refused(5, 0, [u64::from(code), over, over - 1])
        );
    }
    assert_eq!(validate_schema(&fan(19, 131_071), b"", block(0, 131_072)), Ok(()));
    assert_eq!(validate_schema(&fan(19, 131_072), b"", block(0, 131_073)), refused(2, 0, [0; 3]));
    assert_eq!(validate_schema(&fan(14, 1), b"", block(0, 2)), refused(4, 0, [14, 1, 0]));
}

#[test]
fn a_node_comes_before_its_children_and_an_earlier_subtree_before_a_later_sibling() {
    // tuple(tuple(int8(nothing)), int16(nothing)): the int8 is met first, at record 3.
    let rows = [
        (19, 0, 0, 0, 1, 2),
        (19, 0, 0, 0, 3, 1),
        (3, 0, 0, 0, 4, 1),
        (2, 0, 0, 0, 5, 1),
        (0, 0, 0, 0, 0, 0),
        (0, 0, 0, 0, 0, 0),
    ];
    assert_eq!(validate_schema(&records(&rows), b"", block(0, 6)), refused(4, 3, [2, 1, 0]));
    // Behind two other records the place moves with the block.
    let mut shifted = vec![(0, 0, 0, 0, 0, 0); 2];
    shifted.extend(rows);
    assert_eq!(validate_schema(&records(&shifted), b"", block(2, 6)), refused(4, 5, [2, 1, 0]));
}

#[test]
fn encoder_checks_schema_then_root_then_names() {
    let table = records(&[(13, 0, 0, 0, 0, 0), (19, 0, 0, 0, 1, 2), (1, 1, 1, 0, 0, 0), (2, 1, 0, 1, 0, 0)]);
    assert_eq!(validate_encoder(&table, b"n", block(0, 1)), refused(9, 0, [13, 0, 0]));
    assert_eq!(validate_encoder(&table, b"n", block(1, 3)), refused(10, 3, [1, 0, 0]));
    assert_eq!(validate_encoder(&fan(2, 1), b"", block(0, 2)), refused(4, 0, [2, 1, 0]));
}

#[test]
fn format_order() {
    // Records: 0 tuple(), 1 string32, 2 int8(nothing) in two records, 4 tuple(unnamed nothing).
    let table = records(&[
        (19, 0, 0, 0, 0, 0),
        (13, 0, 0, 0, 0, 0),
        (2, 0, 0, 0, 1, 1),
        (0, 0, 0, 0, 0, 0),
        (19, 0, 0, 0, 1, 1),
        (0, 0, 0, 0, 0, 0),
    ]);
    let check = |references: &[[u32; 4]], registry: &[[u32; 4]]| {
        let (references, registry) = (words(references), words(registry));
        validate_format(&FormatTables {
            records: &table,
            names: b"aab",
            references: &references,
            registry: &registry,
        })
    };
    let good = [0, 0, 1, 0];
    assert_eq!(check(&[good], &[]), Ok(()));
    // No tables comes before the registry's schemas, but after its forms.
    assert_eq!(check(&[], &[[0, 1, 2, 2]]), refused(6, 0, [0; 3]));
    assert_eq!(check(&[], &[[0, 1, 2, 1]]), refused(2, 0, [0; 3]));
    // An unused registry entry is held to rules 4 and 5, not to root and names.
    assert_eq!(check(&[good], &[[0, 1, 2, 2]]), refused(4, 2, [2, 1, 0]));
    assert_eq!(check(&[good], &[[0, 1, 1, 1]]), Ok(()));
    assert_eq!(check(&[[1, 0, 1, 0]], &[[0, 1, 1, 1]]), refused(8, 1, [13, 0, 0]));
    assert_eq!(check(&[good, [1, 1, 1, 0]], &[[0, 1, 4, 2]]), refused(10, 5, [0, 0, 0]));
    // Tables in turn: an earlier root before a later unknown reference, and the other way round.
    assert_eq!(check(&[[0, 1, 1, 0], [1, 2, 1, 0]], &[]), refused(8, 1, [13, 0, 0]));
    assert_eq!(check(&[good, [1, 2, 1, 0], [0, 1, 1, 0]], &[]), refused(7, 1, [1, 0, 0]));
    // Order of names: a prefix first, equal names refused, an empty name allowed.
    assert_eq!(check(&[good], &[[0, 0, 0, 1], [0, 1, 0, 1], [0, 2, 0, 1], [2, 1, 0, 1]]), Ok(()));
    assert_eq!(check(&[good], &[[0, 1, 0, 1], [1, 1, 0, 1]]), refused(2, 0, [0; 3]));
    assert_eq!(check(&[good], &[[2, 1, 0, 1], [0, 1, 0, 1]]), refused(2, 0, [0; 3]));
    // A reference's kind and spare bytes.
    for bad in [[2, 0, 1, 0], [0x100, 0, 1, 0], [0, 0, 1, 1 << 24], [1, 3, 1, 0]] {
        assert_eq!(check(&[good, bad], &[]), refused(2, 0, [0; 3]));
    }
    assert_eq!(check(&[[1, 3, 0, 0]], &[[1, 0, 0, 1]]), Ok(())); // empty reference, empty name
}

#[test]
fn names_and_widths() {
    for (code, name) in NAMES.iter().enumerate() {
        assert_eq!(parse(name.as_bytes()), Some(code as u64));
        assert_eq!(parse(format!("{name} ").as_bytes()), None);
    }
    assert_eq!(parse(b""), None);
    let widths = [0, 1, 1, 2, 4, 8, 16, 32, 1, 2, 4, 8, 8];
    for (code, width) in widths.iter().enumerate() {
        assert_eq!(fixed_width(code as u64), Some(*width));
    }
    for code in [13, 14, 15, 16, 17, 18, 19, 20, 255, 256, 1 << 32, u64::MAX] {
        assert_eq!(fixed_width(code), None);
    }
}
