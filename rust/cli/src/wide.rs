//! An int128 or int256 of JSON: two's complement in so many bytes, the lowest first.

/// The number that a hexadecimal text stands for, with a minus sign before it or none. None where it is no such text,
/// and where the number has no room.
pub fn from_hex<const BYTES: usize>(text: &str) -> Option<[u8; BYTES]> {
    let (is_negative, digits) = text.strip_prefix('-').map_or((false, text), |digits| (true, digits));
    if digits.is_empty() {
        return None;
    }
    let mut number = [0; BYTES];
    for digit in digits.chars() {
        let mut pushed = digit.to_digit(16)? as u8;
        for byte in &mut number {
            (*byte, pushed) = (*byte << 4 | pushed, *byte >> 4);
        }
        if pushed > 0 {
            return None;
        }
    }
    let number = if is_negative { negated(number) } else { number };
    // The lowest number is its own opposite; 0 has no sign.
    let fits = (number[BYTES - 1] >= 0x80) == is_negative || number == [0; BYTES];
    fits.then_some(number)
}

fn negated<const BYTES: usize>(number: [u8; BYTES]) -> [u8; BYTES] {
    let mut carry = true;
    number.map(|byte| {
        let (sum, over) = (!byte).overflowing_add(u8::from(carry));
        carry = over;
        sum
    })
}

/// A number that both widths have room for.
pub fn from_number<const BYTES: usize>(number: i128) -> [u8; BYTES] {
    let mut bytes = [if number < 0 { 0xFF } else { 0 }; BYTES];
    bytes[..16].copy_from_slice(&number.to_le_bytes());
    bytes
}

#[cfg(test)]
mod tests {
    use super::*;
    use skiff::Value;

    #[test]
    fn what_is_shown_is_read_back() {
        let powers = (0..128).map(|bit| 1_i128 << bit);
        for power in powers.chain([0x0123_4567_89AB_CDEF_0011_2233_4455_6677]) {
            for number in [power.wrapping_sub(1), power, power.wrapping_add(1), power.wrapping_neg()] {
                let (wide, wider) = (from_number::<16>(number), from_number::<32>(number));
                assert_eq!(wide, number.to_le_bytes());
                assert_eq!(from_hex(&Value::Int128(number).to_string()), Some(wide));
                assert_eq!(from_hex(&Value::Int256(wider).to_string()), Some(wider));
                // The same digits at the top of the wider one.
                let mut shifted = wider;
                shifted.rotate_right(16);
                assert_eq!(from_hex(&Value::Int256(shifted).to_string()), Some(shifted));
            }
        }
    }

    #[test]
    fn a_number_that_has_no_room() {
        let (above, highest) = (format!("8{}", "0".repeat(31)), format!("7{}", "f".repeat(31)));
        assert_eq!(from_hex::<16>(&highest), Some(i128::MAX.to_le_bytes()));
        assert_eq!(from_hex::<16>(&format!("-{above}")), Some(i128::MIN.to_le_bytes()));
        for bad in [&above, &format!("-{}1", &above[..31]), &format!("1{}", "0".repeat(32)), &"f".repeat(33)]
        {
            assert_eq!(from_hex::<16>(bad), None, "{bad}");
            assert!(from_hex::<32>(bad).is_some(), "{bad}");
        }
    }

    #[test]
    fn a_text_that_is_no_number() {
        for bad in ["", "-", "0x1", "+1", " 1", "1 ", "--1", "1-", "g", "1.0", "1_0"] {
            assert_eq!(from_hex::<16>(bad), None, "{bad}");
        }
        assert_eq!(from_hex("-0"), Some([0; 16]));
        assert_eq!(from_hex("00FF"), Some(from_number::<16>(255)));
    }
}
