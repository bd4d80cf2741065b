//! make-delivery FOLDER: writes the small delivery that stands in examples/, a format of one inline
//! table (document 01's schema A) and a handful of rows: names as EBCDIC bytes, each beside the tag of
//! the code page that it came from, and one that is missing.

use std::{env, fs};

use diff::generate::rows::edges::schema_a;
use diff::plan::{inline, lay_out};

/// Code page 37, and 273 by its low byte, with names in them: JE, SMITH, MÜLLER, none, an empty one.
const ROWS: [(u8, Option<&[u8]>); 5] = [
    (0x25, Some(&[0xD1, 0xC5])),
    (0x25, Some(&[0xE2, 0xD4, 0xC9, 0xE3, 0xC8])),
    (0x11, Some(&[0xD4, 0x5A, 0xD3, 0xD3, 0xC5, 0xD9])),
    (0x25, None),
    (0x11, Some(&[])),
];

fn row(page: u8, name: Option<&[u8]>) -> Vec<u8> {
    let mut row = vec![0, 0, page];
    match name {
        None => row.push(0),
        Some(name) => {
            row.push(1);
            row.extend((name.len() as u32).to_le_bytes());
            row.extend(name);
        }
    }
    row
}

fn main() {
    let folder = env::args().nth(1).expect("usage: make-delivery FOLDER");
    let (mut records, mut names) = (Vec::new(), Vec::new());
    let block = lay_out(&schema_a(), &mut records, &mut names);
    let rows: Vec<u8> = ROWS.into_iter().flat_map(|(page, name)| row(page, name)).collect();
    fs::create_dir_all(&folder).expect("the folder can be made");
    for (file, bytes) in [
        ("schema.rec", records),
        ("schema.nam", names),
        ("tables.ref", inline(block).to_vec()),
        ("registry.reg", Vec::new()),
        ("rows.skf", rows),
    ] {
        fs::write(format!("{folder}/{file}"), bytes).expect("the file can be written");
    }
}
