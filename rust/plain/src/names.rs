//! Names are text: well-formed UTF-8 by the Unicode Standard, read from the definition of the encoding form and not
//! from a table of byte ranges. A string is cut into characters by their first bytes; of each the number is put
//! together from its bits, and it has to be a scalar value that needs so many bytes and no fewer.
//!
//! Refusal 33 carries nothing and has place 0, so whether names are text is a yes or a no.

use crate::answer::number::{NAME_NOT_UTF8, SETTING};
use crate::answer::{Checked, Refusal};
use crate::forms::block_records;
use crate::settings::is_short_enough;
use crate::tables::{entries, references, Block, FormatTables, Reference};

/// How many bytes a character has that begins with this one, and the bits that it gives to the number; none for a byte
/// that begins none. The ones at its top say it: no one is a character by itself, two to four are the bytes of one; a
/// single one is a byte further on in a character.
fn begun_by(first: u8) -> Option<(usize, u32)> {
    let bits = u32::from(first);
    match first.leading_ones() {
        0 => Some((1, bits)),
        2 => Some((2, bits % 32)),
        3 => Some((3, bits % 16)),
        4 => Some((4, bits % 8)),
        _ => None,
    }
}

/// The six bits that a byte further on gives, which begins with a one and a zero.
fn six_bits(byte: u8) -> Option<u32> {
    (byte.leading_ones() == 1).then(|| u32::from(byte) % 64)
}

/// A scalar value is any number up to 10FFFF that is no surrogate.
fn is_scalar_value(number: u32) -> bool {
    number <= 0x10_FFFF && !(0xD800..=0xDFFF).contains(&number)
}

/// How many bytes a number takes at least: those of 1 to 4 have 7, 11, 16 and 21 bits for it.
fn shortest(number: u32) -> usize {
    let bits = 32 - number.leading_zeros();
    match bits {
        0..=7 => 1,
        8..=11 => 2,
        12..=16 => 3,
        _ => 4,
    }
}

/// The bytes of the first character, if what is there is one.
fn first_character(name: &[u8]) -> Option<usize> {
    let (bytes, mut number) = begun_by(*name.first()?)?;
    for byte in name.get(1..bytes)? {
        number = number * 64 + six_bits(*byte)?;
    }
    (is_scalar_value(number) && shortest(number) == bytes).then_some(bytes)
}

/// Whether a string is character after character to its end; an empty one is.
pub fn is_text(mut name: &[u8]) -> bool {
    while !name.is_empty() {
        match first_character(name) {
            Some(bytes) => name = &name[bytes..],
            None => return false,
        }
    }
    true
}

/// The names of a formed block's nodes, as many as have one. Each is judged by itself.
pub fn block_is_text(records: &[u8], names: &[u8], block: Block) -> bool {
    block_records(records, block).iter().all(|record| record.named == 0 || is_text(record.name.of(names)))
}

/// The names beside the blocks: of all registry entries, referred to or not, and of all references by name, known or
/// not.
pub fn registry_is_text(tables: &FormatTables) -> bool {
    let by_name = |reference: &Reference| {
        reference.kind != Reference::REGISTRY || is_text(reference.name().of(tables.names))
    };
    entries(tables.registry).iter().all(|entry| is_text(entry.name.of(tables.names)))
        && references(tables.references).iter().all(by_name)
}

/// One string judged as a name: 1 where it is too long to be read, then 33.
pub fn check_name(name: &[u8]) -> Checked {
    if !is_short_enough(name) {
        return Err(Refusal::bare(SETTING));
    }
    if is_text(name) {
        Ok(())
    } else {
        Err(Refusal::bare(NAME_NOT_UTF8))
    }
}
