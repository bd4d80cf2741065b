//! Integers that no type of Rust's own shows, as text.

use crate::report::Report;
use crate::{sys, Refusal};

/// Writes the text of an integer to the start of `text`: a minus sign where it is negative, then the magnitude in
/// lower hex, the most significant digit first, without leading zeros. The integer is in two's complement, the
/// lowest byte first, as an int128 and an int256 are, and has 1 to 32 bytes, else [`Refusal::Setting`]; where there
/// is too little room, [`Refusal::NoOutputRoom`] says how many bytes the text has. Refused, it has written nothing.
/// [`sys::INTEGER_TEXT_BYTES`] are room enough for all.
///
/// ```
/// use skiff::{integer_text, sys, Refusal};
///
/// let mut text = [0; sys::INTEGER_TEXT_BYTES];
/// assert_eq!(integer_text(&(-1_i128).to_le_bytes(), &mut text), Ok("-1"));
/// assert_eq!(integer_text(&255_i128.to_le_bytes(), &mut text), Ok("ff"));
/// assert_eq!(integer_text(&[0; 32], &mut text), Ok("0"));
/// assert_eq!(integer_text(&[0, 0x80], &mut text[..4]), Err(Refusal::NoOutputRoom { needed: 5, place: 0 }));
/// assert_eq!(integer_text(&[], &mut text), Err(Refusal::Setting));
/// ```
pub fn integer_text<'t>(bytes: &[u8], text: &'t mut [u8]) -> Result<&'t str, Refusal> {
    let report = Report::of(|answer| sys::integer_text(bytes, text, answer));
    report.accepted()?;
    let written = usize::try_from(report.bytes).ok().and_then(|length| text.get(..length));
    let shown = written.and_then(|written| std::str::from_utf8(written).ok());
    shown.ok_or_else(|| Refusal::from_numbers(0, 0, [report.bytes, 0, 0]))
}
