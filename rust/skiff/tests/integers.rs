//! int128 and int256 as text: the library's own, by itself and where a value is shown.

use skiff::sys::{self, INTEGER_TEXT_BYTES};
use skiff::{integer_text, Refusal, Value, ValueRef};

/// As Rust shows it, where it has a type of that width.
fn of_rust(number: i128) -> String {
    format!("{}{:x}", if number < 0 { "-" } else { "" }, number.unsigned_abs())
}

/// The same number in 32 bytes.
fn widened(number: i128) -> [u8; 32] {
    let mut bytes = [if number < 0 { 0xFF } else { 0 }; 32];
    bytes[..16].copy_from_slice(&number.to_le_bytes());
    bytes
}

/// Each power of two, its neighbours and their opposites.
fn edges() -> impl Iterator<Item = i128> {
    let powers = (0..128).map(|bit| 1_i128 << bit);
    let beside = |power: i128| [power.wrapping_sub(1), power, power.wrapping_add(1)];
    powers.flat_map(beside).flat_map(|number| [number, number.wrapping_neg()])
}

#[test]
fn every_edge_in_both_widths() {
    for number in edges() {
        let (wide, text) = (widened(number), of_rust(number));
        assert_eq!(Value::Int128(number).to_string(), text);
        assert_eq!(ValueRef::Int128(number).to_string(), text);
        assert_eq!(Value::Int256(wide).to_string(), text);
        assert_eq!(ValueRef::Int256(&wide).to_string(), text);
    }
}

#[test]
fn the_ends_of_an_int256() {
    let (mut lowest, mut highest) = ([0; 32], [0xFF; 32]);
    (lowest[31], highest[31]) = (0x80, 0x7F);
    assert_eq!(Value::Int256(lowest).to_string(), format!("-8{}", "0".repeat(63)));
    assert_eq!(Value::Int256(highest).to_string(), format!("7{}", "f".repeat(63)));
    assert_eq!(Value::Int256([0x80; 32]).to_string(), format!("-{}80", "7f".repeat(31)));
}

/// Where numbers are in decimal, as an int128 is there, an int256 says that it is not.
#[test]
fn in_words() {
    let words = |number: i128| format!("{:?} {:?}", Value::Int128(number), Value::Int256(widened(number)));
    assert_eq!(words(-128), "Int128(-128) Int256(-0x80)");
    assert_eq!(words(0), "Int128(0) Int256(0x0)");
}

#[test]
fn every_width_has_a_text() {
    let mut text = [0; INTEGER_TEXT_BYTES];
    for width in 1..=32 {
        assert_eq!(integer_text(&widened(-2)[..width], &mut text), Ok("-2"));
        assert_eq!(integer_text(&widened(0x7F)[..width], &mut text), Ok("7f"));
    }
    for width in [0, 33, 64] {
        assert_eq!(integer_text(&vec![1; width], &mut text), Err(Refusal::Setting));
    }
}

/// Refused, it leaves the slice; written, the bytes behind the text.
#[test]
fn room_for_a_text() {
    let bytes = (-0xABC_i16).to_le_bytes();
    for room in 0..4 {
        let mut text = [b'.'; 4];
        let refused = Refusal::NoOutputRoom { needed: 4, place: 0 };
        assert_eq!(integer_text(&bytes, &mut text[..room]), Err(refused));
        assert_eq!(text, [b'.'; 4]);
    }
    let mut text = [b'.'; 6];
    assert_eq!(integer_text(&bytes, &mut text[..4]), Ok("-abc"));
    assert_eq!(&text, b"-abc..");
    assert_eq!(integer_text(&[9], &mut text), Ok("9"));
    assert_eq!(&text, b"9abc..");
}

#[test]
fn an_answer_slice_that_is_too_short() {
    let (mut text, mut answer) = ([b'.'; 4], [0xA5; sys::ANSWER_SIZE - 1]);
    assert_eq!(sys::integer_text(&[7], &mut text, &mut answer), 1);
    assert_eq!((text, answer), ([b'.'; 4], [0xA5; sys::ANSWER_SIZE - 1]));
}
