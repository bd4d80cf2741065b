//! An integer of any width as text: a minus sign where it is negative, then the magnitude in lower hex, the most
//! significant digit first, without leading zeros.

use crate::answer::number::{NO_OUTPUT_ROOM, SETTING};
use crate::answer::Refusal;
use crate::settings::room;

/// An integer has so many bytes at most.
pub const MOST_BYTES: usize = 32;

/// The text of the integer that these bytes are in two's complement, the lowest first.
pub fn text_of(bytes: &[u8]) -> String {
    let is_negative = bytes.last().is_some_and(|top| *top >= 128);
    let mut left = if is_negative { missing_to_the_power(bytes) } else { bytes.to_vec() };
    let mut digits = vec![take_a_digit(&mut left)];
    while !left.is_empty() {
        digits.push(take_a_digit(&mut left));
    }
    let sign = if is_negative { "-" } else { "" };
    let digits: String = digits.iter().rev().collect();
    format!("{sign}{digits}")
}

/// What an unsigned number, the lowest byte first, lacks to 256 to the power of its width: subtraction as at school,
/// of each byte from 256, which is lent by the next one.
fn missing_to_the_power(bytes: &[u8]) -> Vec<u8> {
    let mut is_lent = false;
    let mut rest = Vec::new();
    for byte in bytes {
        let taken = u16::from(*byte) + u16::from(is_lent);
        is_lent = taken > 0;
        rest.push(if is_lent { (256 - taken) as u8 } else { 0 });
    }
    rest
}

/// Divides an unsigned number, the lowest byte first, by 16, and gives what is left over as a digit: long division.
/// Zeros at the top are dropped, so that no byte is left of 0.
fn take_a_digit(number: &mut Vec<u8>) -> char {
    let mut rest = 0;
    for byte in number.iter_mut().rev() {
        let part = 256 * rest + u32::from(*byte);
        *byte = (part / 16) as u8;
        rest = part % 16;
    }
    while number.last() == Some(&0) {
        number.pop();
    }
    char::from_digit(rest, 16).expect("it is below 16")
}

/// As a call: the text at the start of a slice, and how many bytes it has.
pub fn write_text(bytes: &[u8], text: &mut [u8]) -> Result<u64, Refusal> {
    if bytes.is_empty() || bytes.len() > MOST_BYTES {
        return Err(Refusal::bare(SETTING));
    }
    let own = text_of(bytes);
    let needed = own.len() as u64;
    if needed > room(text) {
        return Err(Refusal::at(NO_OUTPUT_ROOM, 0, [needed, 0, 0]));
    }
    text[..own.len()].copy_from_slice(own.as_bytes());
    Ok(needed)
}
