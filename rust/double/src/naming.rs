//! Names, and what can be wrong with how they are judged: which strings pass, which names are looked at, and when.

use plain::answer::number::{
    BAD_SCHEMA_TABLE, EMPTY_TABLE_SCHEMAS, NAME_NOT_UTF8, SETTING, TOO_DEEP, UNKNOWN_REGISTRY_REFERENCE,
};
use plain::answer::{Checked, Refusal};
use plain::depth::{depth, MOST_LEVELS};
use plain::format::{blocks, format_rules, validate_encoder, validate_format};
use plain::forms::{block_lies_in, block_records, format_is_formed, span_lies_in};
use plain::names::{check_name, is_text};
use plain::report::{Report, REPORT_BYTES};
use plain::settings::is_short_enough;
use plain::tables::{entries, record_count, references, schema_record, Block, FormatTables, Reference, Span};
use std::slice;

use crate::fault::{kept, looks_past, named};

/// # Safety
/// Each pointer leads to as many bytes as the length after it says.
#[export_name = "skiff2_check_name"]
pub unsafe extern "C" fn skiff_check_name(
    name: *const u8,
    name_len: usize,
    answer: *mut u8,
    answer_len: usize,
) -> u32 {
    let name = slice::from_raw_parts(name, name_len);
    looks_past(name);
    let mut report = Report::of_checked(&checked_name(name));
    match named() {
        "bad_name_has_a_place" if report.number == NAME_NOT_UTF8 => report.place = name.len() as u64,
        "bad_name_is_carried" if report.number == NAME_NOT_UTF8 => report.carried[0] = name.len() as u64,
        "name_tells_its_bytes" if report.number == 0 => report.bytes = name.len() as u64,
        "keeps_state_between_calls" => report.number = kept(report.number),
        _ => {}
    }
    let answer = slice::from_raw_parts_mut(answer, answer_len);
    if named() == "names_into_a_short_answer" && (1..REPORT_BYTES).contains(&answer.len()) {
        answer[0] = 0;
    }
    report.write_to(answer)
}

fn checked_name(name: &[u8]) -> Checked {
    if !is_short_enough(name) && named() != "takes_a_name_of_any_length" {
        return check_name(name);
    }
    text_or_refused(passes(name))
}

fn text_or_refused(is_text: bool) -> Checked {
    is_text.then_some(()).ok_or(Refusal::bare(NAME_NOT_UTF8))
}

/// The same string with some of its pieces made text, so that it passes where they are all that is wrong.
fn without(name: &[u8], length: usize, is_forgiven: impl Fn(&[u8]) -> bool) -> Vec<u8> {
    let mut forgiven = name.to_vec();
    for at in 0..(name.len() + 1).saturating_sub(length) {
        if is_forgiven(&name[at..at + length]) {
            forgiven[at..at + length].fill(b'a');
        }
    }
    forgiven
}

/// Bytes further on in a character.
fn are_further(bytes: &[u8]) -> bool {
    bytes.iter().all(|byte| (0x80..=0xBF).contains(byte))
}

/// The same string with each eighth byte made ASCII, as if nobody looked at it.
fn without_last_of_eight(name: &[u8]) -> Vec<u8> {
    let mut seen = name.to_vec();
    seen.iter_mut().skip(7).step_by(8).filter(|byte| **byte >= 0x80).for_each(|byte| *byte = b'a');
    seen
}

/// Whether a string passes for text where the named fault is.
fn passes(name: &[u8]) -> bool {
    let forgiving =
        |length: usize, is_forgiven: fn(&[u8]) -> bool| is_text(&without(name, length, is_forgiven));
    let right = is_text(name);
    let chars = || String::from_utf8_lossy(name).into_owned();
    match named() {
        "c0_80_passes" => forgiving(2, |bytes| [0xC0, 0xC1].contains(&bytes[0]) && are_further(&bytes[1..])),
        "e0_80_80_passes" => {
            forgiving(3, |bytes| bytes[0] == 0xE0 && bytes[1] < 0xA0 && are_further(&bytes[1..]))
        }
        "f0_80_80_80_passes" => {
            forgiving(4, |bytes| bytes[0] == 0xF0 && bytes[1] < 0x90 && are_further(&bytes[1..]))
        }
        "ed_a0_80_passes" => {
            forgiving(3, |bytes| bytes[0] == 0xED && bytes[1] >= 0xA0 && are_further(&bytes[1..]))
        }
        "f4_90_80_80_passes" => {
            forgiving(4, |bytes| bytes[0] == 0xF4 && bytes[1] >= 0x90 && are_further(&bytes[1..]))
        }
        "f5_80_80_80_passes" => {
            forgiving(4, |bytes| (0xF5..=0xF7).contains(&bytes[0]) && are_further(&bytes[1..]))
        }
        "cut_in_its_last_character_passes" => {
            right
                || (1..=3).any(|less| {
                    less < name.len()
                        && is_cut(&name[name.len() - less..])
                        && is_text(&name[..name.len() - less])
                })
        }
        "lone_continuation_passes" => forgiving(1, are_further),
        "second_byte_is_not_looked_at" => {
            forgiving(2, |bytes| (0xC2..=0xDF).contains(&bytes[0]) && bytes[1] >= 0x80)
        }
        "eighth_byte_is_not_looked_at" => right || is_text(&without_last_of_eight(name)),
        "rest_of_eight_is_not_looked_at" => {
            let whole = name.len() / 8 * 8;
            right || (whole > 0 && is_text(&name[..whole]))
        }
        "names_past_255_bytes_pass" => right || name.len() > 255,
        "length_is_cut_to_16_bits" => is_text(&name[..name.len() % 65_536]),
        "empty_name_is_refused" => right && !name.is_empty(),
        "zero_is_refused" => right && !name.contains(&0),
        "noncharacters_are_refused" => right && !chars().contains(['\u{FFFE}', '\u{FFFF}']),
        "leading_feff_is_refused" => right && !name.starts_with(b"\xEF\xBB\xBF"),
        "10ffff_is_refused" => right && !chars().contains('\u{10FFFF}'),
        "d7ff_is_refused" => right && !chars().contains('\u{D7FF}'),
        "third_byte_after_ed_is_bounded_too" => {
            right && !name.windows(3).any(|bytes| bytes[0] == 0xED && bytes[2] >= 0xA0)
        }
        "two_bytes_are_enough" => right && name.iter().all(|byte| *byte < 0xE0),
        _ => right,
    }
}

/// The beginning of a character, and not all of it.
fn is_cut(bytes: &[u8]) -> bool {
    let wanted = match bytes[0] {
        0xC2..=0xDF => 2,
        0xE0..=0xEF => 3,
        0xF0..=0xF4 => 4,
        _ => return false,
    };
    bytes.len() < wanted && are_further(&bytes[1..])
}

fn span_passes(store: &[u8], span: Span) -> bool {
    passes(span.of(store))
}

/// The names of a formed block, but for those that the named fault does not look at.
fn block_passes(records: &[u8], store: &[u8], block: Block) -> bool {
    let inside = block_records(records, block);
    let columns = inside[0].child_count as usize;
    let seen = match named() {
        "names_below_columns_are_not_looked_at" => &inside[..=columns.min(inside.len() - 1)],
        "name_of_the_root_is_not_looked_at" => &inside[1..],
        "last_node_is_not_looked_at" => &inside[..inside.len() - 1],
        _ => &inside,
    };
    seen.iter().all(|record| record.named == 0 || span_passes(store, record.name))
}

fn is_known(tables: &FormatTables, name: &[u8]) -> bool {
    entries(tables.registry).iter().any(|entry| entry.name.of(tables.names) == name)
}

fn is_used(tables: &FormatTables, name: &[u8]) -> bool {
    let by_name = |reference: &Reference| {
        reference.kind == Reference::REGISTRY && reference.name().of(tables.names) == name
    };
    references(tables.references).iter().any(by_name)
}

/// Whether a store is seen to be ASCII as a whole, by what the named fault looks at of it.
fn store_passes(tables: &FormatTables) -> bool {
    let store = tables.names;
    match named() {
        "store_is_ascii_by_its_whole_eights" => store[..store.len() / 8 * 8].is_ascii(),
        "store_is_ascii_but_for_its_last_byte" => store.split_last().is_none_or(|(_, rest)| rest.is_ascii()),
        "store_as_long_as_the_records_passes" => store.len() == tables.records.len(),
        "store_longer_than_the_records_passes" => store.len() > tables.records.len(),
        _ => false,
    }
}

/// All names that the named fault looks at.
fn names_pass(tables: &FormatTables) -> bool {
    let store = tables.names;
    if store_passes(tables) {
        return true;
    }
    let inline = references(tables.references).into_iter().filter(|one| one.kind == Reference::INLINE);
    let by_name = references(tables.references).into_iter().filter(|one| one.kind == Reference::REGISTRY);
    let mut entries = entries(tables.registry);
    if named() == "unused_entries_are_not_looked_at" {
        entries.retain(|entry| is_used(tables, entry.name.of(store)));
    }
    let blocks_of_entries = named() != "blocks_of_entries_are_not_looked_at";
    let of_blocks = inline
        .map(|reference| reference.block())
        .chain(entries.iter().map(|entry| entry.block).filter(|_| blocks_of_entries))
        .all(|block| block_passes(tables.records, store, block));
    let of_entries = named() == "names_of_entries_are_not_looked_at"
        || entries.iter().all(|entry| span_passes(store, entry.name));
    let mut of_references = by_name.filter(|reference| match named() {
        "unknown_references_are_not_looked_at" => is_known(tables, reference.name().of(store)),
        _ => true,
    });
    let more = match named() {
        "names_in_no_block_are_looked_at" => (0..record_count(tables.records)).all(|index| {
            let record = schema_record(tables.records, index);
            record.named == 0 || !span_lies_in(store, record.name) || span_passes(store, record.name)
        }),
        "whole_store_is_looked_at" => passes(store),
        _ => true,
    };
    of_blocks && of_entries && of_references.all(|reference| span_passes(store, reference.name())) && more
}

/// The check of a format, with its steps in the order that the named fault has them.
pub fn checked_format(tables: &FormatTables) -> Checked {
    let slices = [tables.records, tables.names, tables.references, tables.registry];
    if !slices.into_iter().all(is_short_enough) {
        return Err(Refusal::bare(SETTING));
    }
    let right = validate_format(tables);
    let number = right.map_or_else(|refusal| refusal.number, |()| 0);
    if number == BAD_SCHEMA_TABLE {
        let is_early = named() == "names_come_before_forms" && some_name_is_bad(tables);
        return if is_early { text_or_refused(false) } else { right };
    }
    debug_assert!(format_is_formed(tables));
    let names = text_or_refused(names_pass(tables));
    if blocks(tables).into_iter().any(|block| depth(tables.records, block) > MOST_LEVELS) {
        return if named() == "names_come_before_depths" { names.and(right) } else { right };
    }
    let rules = format_rules(tables);
    let first = rules.map_or_else(|refusal| refusal.number, |()| 0);
    match named() {
        "names_come_after_no_tables" if first == EMPTY_TABLE_SCHEMAS => rules,
        "names_come_after_unknown_references" if first == UNKNOWN_REGISTRY_REFERENCE => rules,
        "names_come_after_the_rules" => rules.and(names),
        "bad_name_of_a_format_has_a_place" => names
            .map_err(|refusal| Refusal {
                place: blocks(tables).first().map_or(1, |one| one.first + 1),
                ..refusal
            })
            .and(rules),
        "formats_with_bad_names_pass" => rules,
        _ => names.and(rules),
    }
}

/// Whether the name of an entry's or of a table's block is bad, as far as those lie where they should.
fn some_name_is_bad(tables: &FormatTables) -> bool {
    let of_block = |block: Block| {
        block_lies_in(tables.records, block)
            && block_records(tables.records, block).iter().any(|record| {
                record.named == 1
                    && span_lies_in(tables.names, record.name)
                    && !span_passes(tables.names, record.name)
            })
    };
    blocks(tables).into_iter().any(of_block)
}

/// The encoder's check of its block.
pub fn checked_encoder(records: &[u8], names: &[u8], block: Block) -> Checked {
    let right = validate_encoder(records, names, block);
    let number = right.map_or_else(|refusal| refusal.number, |()| 0);
    match named() {
        _ if [BAD_SCHEMA_TABLE, TOO_DEEP].contains(&number) => right,
        "encoder_does_not_look_at_names" => plain::format::encoder_rules(records, block),
        "encoder_looks_at_names_after_its_rules" => plain::format::encoder_rules(records, block).and(right),
        "encoder_looks_at_all_records" => {
            let all = (0..record_count(records)).map(|index| schema_record(records, index));
            let is_bad = |name: Span| span_lies_in(names, name) && !passes(name.of(names));
            let bad = all.filter(|record| record.named == 1).any(|record| is_bad(record.name));
            text_or_refused(!bad).and(right)
        }
        _ => text_or_refused(block_passes(records, names, block))
            .and_then(|()| plain::format::encoder_rules(records, block)),
    }
}

/// The store as a call takes it that does not look at names, where that is the fault: what is no text in it is text
/// then.
pub fn taken_store(fault: &str, store: &[u8]) -> Option<Vec<u8>> {
    if named() != fault {
        return None;
    }
    let as_text = |invalid: &[u8]| vec![b'a'; invalid.len()];
    let chunks = store.utf8_chunks();
    Some(
        chunks
            .flat_map(|chunk| [chunk.valid().as_bytes().to_vec(), as_text(chunk.invalid())].concat())
            .collect(),
    )
}
