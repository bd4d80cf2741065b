//! Strings that are text and strings that are none.

use std::iter::repeat_n;

use crate::rng::Rng;

/// Strings that are no UTF-8, each in a way of its own: bytes that begin nothing, characters that are longer than they
/// need be, surrogates, numbers above 10FFFF, characters that are cut, and a name in EBCDIC.
pub const BAD: [(&str, &[u8]); 16] = [
    ("a lone continuation", b"\x80"),
    ("a lone continuation", b"a\xBF"),
    ("an overlong form", b"\xC0\x80"),
    ("an overlong form", b"\xC1\xBF"),
    ("an overlong form", b"\xE0\x9F\xBF"),
    ("an overlong form", b"\xF0\x8F\xBF\xBF"),
    ("a surrogate", b"\xED\xA0\x80"),
    ("a surrogate", b"\xED\xBF\xBF"),
    ("a number above 10FFFF", b"\xF4\x90\x80\x80"),
    ("a number above 10FFFF", b"\xF5\x80\x80\x80"),
    ("a cut character", b"\xC3"),
    ("a cut character", b"ab\xE2\x82"),
    ("a cut character", b"\xF0\x9F\x98"),
    ("a first byte within a character", b"\xE2\xC3\xA9"),
    ("no first byte", b"\xFF\xFE"),
    ("EBCDIC", b"\xD5\x81\x94\x85"),
];

/// Strings that are UTF-8 at its edges: the first and the last character of each length, on both sides of the
/// surrogates, U+0000, a leading U+FEFF, noncharacters; and around eight bytes.
pub const GOOD: [&str; 18] = [
    "",
    "\0",
    "\u{7F}",
    "a\0b",
    "\u{80}",
    "\u{7FF}",
    "\u{800}",
    "\u{D7FF}",
    "\u{E000}",
    "\u{FEFF}name",
    "\u{FDD0}",
    "\u{FFFF}",
    "\u{10000}",
    "\u{10FFFF}",
    "имя",
    "名前",
    "seven bé",
    "eight by\u{1F600}",
];

/// Bytes at the bounds of what may come first, second or later in a character.
pub const BOUNDS: [u8; 12] = [0x00, 0x7F, 0x80, 0x8F, 0x90, 0x9F, 0xA0, 0xBF, 0xC0, 0xC2, 0xF4, 0xFF];

pub fn bad(rng: &mut Rng) -> Vec<u8> {
    let (_, bytes) = rng.pick(&BAD);
    match rng.below(4) {
        0 => [&good(rng), *bytes].concat(),
        1 => [*bytes, &good(rng)].concat(),
        _ => bytes.to_vec(),
    }
}

pub fn good(rng: &mut Rng) -> Vec<u8> {
    match rng.below(4) {
        0 => text(rng, 5).into_bytes(),
        1 => vec![b'n'; rng.between(1, 20)],
        _ => rng.pick(&GOOD).as_bytes().to_vec(),
    }
}

/// Any character: as often of one byte as of two, three or four.
fn character(rng: &mut Rng) -> char {
    let (low, high) = [(0, 0x7F), (0x80, 0x7FF), (0x800, 0xFFFF), (0x1_0000, 0x10_FFFF)][rng.below(4)];
    loop {
        let number = match rng.below(8) {
            0 => low,
            1 => high,
            2 => [0xD7FF, 0xE000, 0xFEFF, 0xFFFD][rng.below(4)],
            _ => rng.between(low, high),
        };
        if let Some(character) = char::from_u32(number as u32) {
            return character;
        }
    }
}

/// So many characters at most.
fn text(rng: &mut Rng, most: usize) -> String {
    (0..rng.between(1, most)).map(|_| character(rng)).collect()
}

/// A text of at least so many bytes.
fn long_text(rng: &mut Rng, bytes: usize) -> Vec<u8> {
    let mut text = String::new();
    while text.len() < bytes {
        text.push(character(rng));
    }
    text.into_bytes()
}

fn damage(rng: &mut Rng, bytes: &mut Vec<u8>) {
    let at = rng.below(bytes.len());
    match rng.below(5) {
        0 => bytes[at] = rng.byte(),
        1 => bytes[at] ^= 1 << rng.below(8),
        2 => bytes[at] = *rng.pick(&BOUNDS),
        3 => drop(bytes.remove(at)),
        _ => bytes.insert(at, *rng.pick(&BOUNDS)),
    }
}

/// How many bytes a string has that is drawn by chance.
pub const SHORTEST: usize = 4;
pub const LONGEST: usize = 12;

/// A string of 4 to 12 bytes, and what kind of one.
pub fn random(rng: &mut Rng) -> (super::Kind, Vec<u8>) {
    let length = rng.between(SHORTEST, LONGEST);
    let (kind, mut bytes) = match rng.below(8) {
        0 => ("random bytes", (0..length).map(|_| rng.byte()).collect()),
        1 => ("bytes at bounds", (0..length).map(|_| *rng.pick(&BOUNDS)).collect()),
        2 | 3 => ("text", long_text(rng, length)),
        4 | 5 => {
            let mut bytes = long_text(rng, length);
            damage(rng, &mut bytes);
            ("damaged text", bytes)
        }
        6 => ("cut text", long_text(rng, length)),
        _ => {
            let mut bytes = vec![b'a'; length];
            let at = rng.below(length);
            let piece: Vec<u8> = match rng.below(2) {
                0 => bad(rng),
                _ => character(rng).to_string().into_bytes(),
            };
            bytes.splice(at..at, piece);
            ("ASCII with a piece", bytes)
        }
    };
    if kind == "cut text" {
        bytes.truncate(length);
    }
    bytes.truncate(LONGEST);
    bytes.extend(repeat_n(b'z', SHORTEST.saturating_sub(bytes.len())));
    (kind, bytes)
}

/// Longest strings of ASCII that a byte or a piece is put into at each place.
const MOST_ASCII: usize = 40;

/// Takes the strings one by one.
pub type Emit<'a> = dyn FnMut(super::Kind, &[u8]) + 'a;

/// Each byte at each place of strings of ASCII up to 40 bytes, and each good and bad piece there: the library looks at
/// eight bytes at a time where they are all ASCII.
fn in_ascii(emit: &mut Emit) {
    for length in 0..=MOST_ASCII {
        let ascii: Vec<u8> = (0..length).map(|at| b'a' + (at % 26) as u8).collect();
        for at in 0..length {
            let mut bytes = ascii.clone();
            for byte in 0..=255 {
                bytes[at] = byte;
                emit("a byte in ASCII", &bytes);
            }
        }
        let pieces = GOOD.iter().map(|text| text.as_bytes()).chain(BAD.iter().map(|(_, bytes)| *bytes));
        for piece in pieces {
            for at in 0..=length {
                emit("a piece in ASCII", &[&ascii[..at], piece, &ascii[at..]].concat());
            }
        }
    }
}

/// Each first byte with second, third and fourth ones at their bounds, alone and at the end of eight bytes.
fn at_bounds(emit: &mut Emit) {
    for first in 0..=255 {
        for second in BOUNDS {
            for third in BOUNDS {
                for fourth in BOUNDS {
                    let bytes = [first, second, third, fourth];
                    emit("a first byte and bounds", &bytes);
                    emit("a first byte and bounds", &[b"fivec", &bytes[..]].concat());
                }
            }
        }
    }
}

/// The first and the last characters of each first byte, cut at each of their bytes.
fn cut(emit: &mut Emit) {
    for character in ['\u{80}', '\u{7FF}', '\u{800}', '\u{FFFF}', '\u{10000}', '\u{10FFFF}'] {
        let bytes = character.to_string().into_bytes();
        for before in 0..=17 {
            for length in 1..bytes.len() {
                let ascii = vec![b'a'; before];
                emit("a cut character", &[&ascii, &bytes[..length]].concat());
                emit("a cut character", &[&ascii, &bytes[..length], b"a"].concat());
                emit("a cut character", &[&ascii, &bytes[..length], &bytes].concat());
                emit("a cut character", &[&ascii, &bytes, &bytes[length..]].concat());
            }
        }
    }
}

/// Names of about as many bytes as one, two or three bytes count, with a piece at their ends and in them.
fn long(emit: &mut Emit) {
    for length in [254, 255, 256, 257, 65_534, 65_535, 65_536, 65_537, 70_000, 1 << 20] {
        let ascii = vec![b'x'; length];
        emit("a long name", &ascii);
        for at in [0, 1, 7, 8, 253, 255, 256, 65_535, 65_536, length - 2, length - 1] {
            for byte in [0x80, 0xC3] {
                let mut bytes = ascii.clone();
                if let Some(place) = bytes.get_mut(at) {
                    *place = byte;
                    emit("a long name", &bytes);
                }
            }
        }
        for text in ["é", "名", "\u{1F600}"] {
            let mut bytes = text.repeat(length / text.len() + 1).into_bytes();
            emit("a long name", &bytes);
            bytes.pop();
            emit("a long name", &bytes);
        }
    }
}

/// Strings that every run goes through.
pub fn fixed(emit: &mut Emit) {
    in_ascii(emit);
    at_bounds(emit);
    cut(emit);
    long(emit);
}

#[cfg(test)]
mod tests {
    use super::*;
    use std::collections::BTreeMap;
    use std::str::from_utf8;

    #[test]
    fn good_is_text_and_bad_is_not() {
        assert!(BAD.iter().all(|(_, bytes)| from_utf8(bytes).is_err()));
        for number in 0..10_000 {
            let rng = &mut Rng::for_case(6, number);
            assert!(from_utf8(&good(rng)).is_ok());
            assert!(from_utf8(&bad(rng)).is_err());
        }
    }

    /// Of each kind of drawn strings but good text some are text and some are not.
    #[test]
    fn drawn_strings_are_of_both_sorts() {
        let mut met: BTreeMap<(&str, bool), u64> = BTreeMap::new();
        for number in 0..100_000 {
            let (kind, bytes) = random(&mut Rng::for_case(6, number));
            assert!((SHORTEST..=LONGEST).contains(&bytes.len()));
            *met.entry((kind, from_utf8(&bytes).is_ok())).or_default() += 1;
        }
        assert!(met.len() >= 11 && met.values().all(|count| *count > 20), "{met:?}");
    }
}
