//! Names to parse and codes to measure.

use plain::wire_type::NAMES;

use super::Emit;
use crate::case::{op, Case};
use crate::rng::Rng;

fn parse(name: &[u8]) -> Case {
    Case { op: op::PARSE, names: name.to_vec(), ..Case::default() }
}

fn width(code: u64) -> Case {
    Case { op: op::FIXED_WIDTH, a: code, ..Case::default() }
}

pub fn fixed(emit: &mut Emit) {
    for name in NAMES {
        let bytes = name.as_bytes();
        for end in 0..=bytes.len() {
            emit("parse", parse(&bytes[..end]));
            emit("parse", parse(&bytes[end..]));
        }
        for byte in 0..=255 {
            emit("parse", parse(&[bytes, &[byte]].concat()));
            emit("parse", parse(&[&[byte], bytes].concat()));
        }
        for at in 0..bytes.len() {
            // Each letter in the other case, the next letter, and with its top bit set.
            for changed in [bytes[at] ^ 0x20, bytes[at].wrapping_add(1), bytes[at] | 0x80] {
                let mut other = bytes.to_vec();
                other[at] = changed;
                emit("parse", parse(&other));
            }
        }
        emit("parse", parse(name.to_uppercase().as_bytes()));
    }
    for first in 0..=255 {
        emit("parse", parse(&[first]));
    }
    for code in 0..=300 {
        emit("fixed width", width(code));
    }
    for code in 0..20 {
        // Taken whole: the low bytes of a huge number are no code.
        for high in [1 << 8, 1 << 16, 1 << 32, 1 << 56, 1 << 63] {
            emit("fixed width", width(high + code));
        }
    }
    emit("fixed width", width(u64::MAX));
}

/// Each name and each code once, and the first number that is no code.
pub fn few(emit: &mut Emit) {
    NAMES.into_iter().for_each(|name| emit("parse", parse(name.as_bytes())));
    (0..=20).for_each(|code| emit("fixed width", width(code)));
}

pub fn random_parse(rng: &mut Rng) -> Case {
    let mut name = rng.pick(&NAMES).as_bytes().to_vec();
    match rng.below(4) {
        0 => name = (0..rng.below(24)).map(|_| rng.byte()).collect(),
        1 => {
            let at = rng.below(name.len());
            name[at] = rng.byte();
        }
        2 => {
            let at = rng.below(name.len() + 1);
            name.insert(at, *rng.pick(b"_8163250 tvi"));
        }
        _ => {
            let (one, other) = (rng.below(name.len()), rng.below(name.len()));
            name.swap(one, other);
        }
    }
    // The other parts of a case are no business of this call.
    Case { a: rng.draw() % 3, b: rng.draw() % 3, ..parse(&name) }
}

pub fn random_width(rng: &mut Rng) -> Case {
    let code = rng.draw() >> rng.below(64);
    Case { names: vec![1; rng.below(3)], ..width(code) }
}
