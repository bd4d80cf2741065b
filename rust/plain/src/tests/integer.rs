//! The text of an integer: document 02's examples, every narrow one against Rust's own, room and widths.

use crate::answer::Refusal;
use crate::integer::{text_of, write_text};
use crate::report::Report;

#[test]
fn document_02() {
    assert_eq!(text_of(&(-1_i128).to_le_bytes()), "-1");
    assert_eq!(text_of(&[0; 32]), "0");
    assert_eq!(text_of(&255_i128.to_le_bytes()), "ff");
    assert_eq!(text_of(&i128::MIN.to_le_bytes()), format!("-8{}", "0".repeat(31)));
    assert_eq!(text_of(&i128::MAX.to_le_bytes()), format!("7{}", "f".repeat(31)));
    let mut lowest = [0; 32];
    lowest[31] = 0x80;
    assert_eq!(text_of(&lowest), format!("-8{}", "0".repeat(63)));
}

fn of_rust(number: i128) -> String {
    format!("{}{:x}", if number < 0 { "-" } else { "" }, number.unsigned_abs())
}

#[test]
fn as_rust_has_them() {
    for number in i16::MIN..=i16::MAX {
        assert_eq!(text_of(&number.to_le_bytes()), of_rust(number.into()));
    }
    for bit in 0..128 {
        let power = 1_i128.wrapping_shl(bit);
        for number in [power.wrapping_sub(1), power, power.wrapping_add(1)] {
            for number in [number, number.wrapping_neg()] {
                let mut wide = [if number < 0 { 0xFF } else { 0 }; 32];
                wide[..16].copy_from_slice(&number.to_le_bytes());
                assert_eq!(text_of(&wide[..16]), of_rust(number));
                // The same number in every width that has room for it.
                for width in 17..=32 {
                    assert_eq!(text_of(&wide[..width]), of_rust(number));
                }
            }
        }
    }
}

#[test]
fn room_and_widths() {
    let bytes = (-0xABC_i16).to_le_bytes();
    let mut text = *b"......";
    assert_eq!(write_text(&bytes, &mut text), Ok(4));
    assert_eq!(&text, b"-abc..");
    assert_eq!(Report::of_text(&Ok(4)).numbers(), [0, 0, 0, 0, 0, 0, 0, 4, 0, 0, 0]);
    for room in 0..4 {
        let mut text = vec![b'.'; room];
        assert_eq!(write_text(&bytes, &mut text), Err(Refusal::at(21, 0, [4, 0, 0])));
        assert_eq!(text, vec![b'.'; room]);
    }
    for width in [0, 33, 64] {
        assert_eq!(write_text(&vec![1; width], &mut text), Err(Refusal::bare(1)));
    }
    assert_eq!(&text, b"-abc..");
}
