//! What a recording has to have of names: each sort of string that is no text, each place of a name, each turn before
//! and after another refusal, and text with characters of every length.

use plain::answer::number::{BAD_SCHEMA_TABLE, NAME_NOT_UTF8, TOO_DEEP};
use plain::format::format_rules;
use plain::names::{block_is_text, is_text};
use plain::tables::{entries, references, Reference};

use super::wanted::Shown;
use crate::case::{op, Answer, Case};
use crate::generate::named_edges::FEW;
use crate::judge::tables;

/// Which of a formed format's names are no text: of nodes of tables, of nodes of entries, of entries, of references.
#[derive(Debug, PartialEq, Eq)]
struct Bad {
    of_tables: bool,
    of_entries_nodes: bool,
    of_entries: bool,
    of_references: bool,
}

impl Bad {
    fn of(case: &Case) -> Self {
        let (references, entries) = (references(&case.references), entries(&case.registry));
        let is_bad = |block| !block_is_text(&case.records, &case.names, block);
        let inline = references.iter().filter(|reference| reference.kind == Reference::INLINE);
        let mut by_name = references.iter().filter(|reference| reference.kind == Reference::REGISTRY);
        Self {
            of_tables: inline.map(|reference| reference.block()).any(is_bad),
            of_entries_nodes: entries.iter().map(|entry| entry.block).any(is_bad),
            of_entries: entries.iter().any(|entry| !is_text(entry.name.of(&case.names))),
            of_references: by_name.any(|reference| !is_text(reference.name().of(&case.names))),
        }
    }

    /// Those alone.
    fn only(of_tables: bool, of_entries_nodes: bool, of_entries: bool, of_references: bool) -> Self {
        Self { of_tables, of_entries_nodes, of_entries, of_references }
    }
}

fn is_checked(case: &Case, answer: &Answer, number: u64) -> bool {
    case.op == op::FORMAT && answer.number == number
}

/// The refusal that would have come after that of names.
fn then(case: &Case) -> u64 {
    format_rules(&tables(case)).err().map_or(0, |refusal| refusal.number)
}

fn has(case: &Case, bytes: &[u8]) -> bool {
    case.names.windows(bytes.len()).any(|window| window == bytes)
}

pub fn shown() -> Vec<Shown> {
    let mut all: Vec<Shown> = Vec::new();
    for name in FEW {
        all.push((
            format!("a format refused for {name:02x?}"),
            Box::new(move |case, answer| is_checked(case, answer, NAME_NOT_UTF8) && has(case, name)),
        ));
    }
    for (words, bad) in [
        ("a node of a table", Bad::only(true, false, false, false)),
        ("a node of an entry", Bad::only(false, true, false, false)),
        ("an entry that no table refers to", Bad::only(false, false, true, false)),
        ("a reference that no entry has", Bad::only(false, false, false, true)),
        ("an entry and the reference to it", Bad::only(false, false, true, true)),
    ] {
        all.push((
            format!("a bad name of {words}, and no other"),
            Box::new(move |case, answer| is_checked(case, answer, NAME_NOT_UTF8) && Bad::of(case) == bad),
        ));
    }
    for number in [0, 4, 6, 7, 8, 10] {
        all.push((
            format!("33 before {number}"),
            Box::new(move |case, answer| is_checked(case, answer, NAME_NOT_UTF8) && then(case) == number),
        ));
    }
    for number in [BAD_SCHEMA_TABLE, TOO_DEEP] {
        all.push((
            format!("{number} before 33"),
            Box::new(move |case, answer| is_checked(case, answer, number) && has(case, FEW[0])),
        ));
    }
    all.push((
        "bytes that are no text, and no name".to_owned(),
        Box::new(|case, answer| is_checked(case, answer, 0) && !is_text(&case.names)),
    ));
    for text in ["é", "名", "\u{1F600}", "\0", "\u{FEFF}", "\u{FFFF}", "\u{10FFFF}"] {
        all.push((
            format!("a name with {text:?}"),
            Box::new(move |case, answer| is_checked(case, answer, 0) && has(case, text.as_bytes())),
        ));
    }
    all
}
