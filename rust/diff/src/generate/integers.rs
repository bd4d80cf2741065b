//! Integers of any width: two's complement, the lowest byte first.

use std::collections::BTreeSet;

use crate::rng::Rng;

/// A number so much higher, or lower; what leaves the width is lost.
fn moved(number: &[u8], by: i16) -> Vec<u8> {
    let mut carry = by;
    let add = |byte: &u8| {
        let sum = i16::from(*byte) + carry;
        carry = sum >> 8;
        sum as u8
    };
    number.iter().map(add).collect()
}

fn opposite(number: &[u8]) -> Vec<u8> {
    let flipped: Vec<u8> = number.iter().map(|byte| !byte).collect();
    moved(&flipped, 1)
}

/// Each power of two and its neighbours, and their opposites: 0, 1, -1 and both ends of the width are among them.
pub fn edges(width: usize) -> BTreeSet<Vec<u8>> {
    let mut edges = BTreeSet::new();
    for bit in 0..8 * width {
        let mut power = vec![0; width];
        power[bit / 8] = 1 << (bit % 8);
        for number in [-1, 0, 1].map(|by| moved(&power, by)) {
            edges.insert(opposite(&number));
            edges.insert(number);
        }
    }
    edges
}

/// Bytes on which a carry, a sign or a leading digit turns.
const TELLING: [u8; 8] = [0, 0, 0xFF, 0x80, 0x7F, 0x01, 0x0F, 0xF0];

/// Any number of that width: often with zeros at its lower end, over which a carry runs, and often with few digits.
pub fn random(rng: &mut Rng, width: usize) -> Vec<u8> {
    let tells = rng.one_in(4);
    let mut bytes: Vec<u8> =
        (0..width).map(|_| if tells { *rng.pick(&TELLING) } else { rng.byte() }).collect();
    if rng.one_in(4) {
        let zeros = rng.between(1, width);
        bytes[..zeros].fill(0);
    }
    if rng.one_in(4) {
        let digits = rng.below(width);
        bytes[digits..].fill(*rng.pick(&[0, 0xFF]));
    }
    bytes
}

#[cfg(test)]
mod tests {
    use super::*;

    #[test]
    fn the_edges_are_all_there() {
        for width in 1..=16 {
            let edges = edges(width);
            let has = |number: i128| edges.contains(&number.to_le_bytes()[..width]);
            assert!([0, 1, -1, 2, -2, 3, -3, 127, -127, -128].into_iter().all(has));
            for bit in 0..8 * width {
                let power = 1_i128 << bit;
                assert!([power.wrapping_sub(1), power, power.wrapping_add(1)].into_iter().all(has));
                assert!([power.wrapping_neg(), 1_i128.wrapping_sub(power)].into_iter().all(has));
            }
        }
        // Six for each power, less what comes twice.
        assert_eq!(edges(32).len(), 6 * 256 - 10);
    }
}
