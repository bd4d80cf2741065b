//! The text of an integer, and what can be wrong with it.

use plain::answer::Refusal;
use plain::integer::{text_of, write_text, MOST_BYTES};
use plain::report::{Report, REPORT_BYTES};
use std::slice;

use crate::fault::{kept, looks_past, named};

/// # Safety
/// Each pointer leads to as many bytes as the length after it says.
#[export_name = "skiff2_integer_text"]
pub unsafe extern "C" fn skiff_integer_text(
    bytes: *const u8,
    bytes_len: usize,
    text: *mut u8,
    text_len: usize,
    answer: *mut u8,
    answer_len: usize,
) -> u32 {
    let bytes = slice::from_raw_parts(bytes, bytes_len);
    let text = slice::from_raw_parts_mut(text, text_len);
    text_answer(bytes, text, slice::from_raw_parts_mut(answer, answer_len))
}

fn digits(most_significant_first: impl Iterator<Item = u8>) -> String {
    most_significant_first.map(|byte| format!("{byte:02x}")).collect()
}

/// Leading zeros are taken off.
fn shown(is_negative: bool, digits: &str) -> String {
    let digits = digits.trim_start_matches('0');
    let sign = if is_negative { "-" } else { "" };
    format!("{sign}{}", if digits.is_empty() { "0" } else { digits })
}

/// The text as such a fault has it; none where the fault is another.
fn wrong_text(fault: &str, bytes: &[u8]) -> Option<String> {
    let right = text_of(bytes);
    let is_negative = right.starts_with('-');
    let magnitude = right.trim_start_matches('-');
    Some(match fault {
        "sign_is_the_lowest_bytes" => shown(bytes[0] >= 128, magnitude),
        "sign_is_that_of_byte_15" => shown(bytes[bytes.len().min(16) - 1] >= 128, magnitude),
        "minus_one_is_a_huge_number" => shown(false, &digits(bytes.iter().rev().copied())),
        "carry_is_lost" if is_negative => {
            let mut flipped: Vec<u8> = bytes.iter().map(|byte| !byte).collect();
            flipped[0] = flipped[0].wrapping_add(1);
            shown(true, &digits(flipped.into_iter().rev()))
        }
        "the_lowest_has_no_magnitude" if magnitude == format!("8{}", "0".repeat(2 * bytes.len() - 1)) => {
            "-0".to_owned()
        }
        "digits_in_stored_order" if !is_negative => shown(false, &digits(bytes.iter().copied())),
        "a_leading_zero_is_kept" if magnitude.len() % 2 == 1 && magnitude != "0" => {
            format!("{}0{magnitude}", if is_negative { "-" } else { "" })
        }
        "zero_has_no_digits" if right == "0" => String::new(),
        "digits_in_capitals" => right.to_uppercase(),
        "sixteen_digits_at_most" if magnitude.len() > 16 => {
            shown(is_negative, &magnitude[magnitude.len() - 16..])
        }
        _ => return None,
    })
}

fn text_answer(bytes: &[u8], text: &mut [u8], answer: &mut [u8]) -> u32 {
    let fault = named();
    if answer.len() < REPORT_BYTES && fault != "texts_with_a_short_answer" {
        return 1;
    }
    looks_past(bytes);
    let is_one = (1..=MOST_BYTES).contains(&bytes.len());
    let mut written = match fault {
        "text_room_excludes_equality" if is_one && text.len() == text_of(bytes).len() => {
            Err(Refusal::at(21, 0, [text.len() as u64, 0, 0]))
        }
        "no_bytes_are_zero" if bytes.is_empty() => write_text(&[0], text),
        "bytes_past_the_32nd_are_left_out" if bytes.len() > MOST_BYTES => {
            write_text(&bytes[..MOST_BYTES], text)
        }
        "room_comes_before_the_width" if !is_one && text.is_empty() => Err(Refusal::at(21, 0, [1, 0, 0])),
        _ => write_text(bytes, text),
    };
    match written {
        Ok(length) => {
            let length = length as usize;
            if let Some(wrong) = wrong_text(fault, bytes).filter(|wrong| wrong.len() <= text.len()) {
                text[..wrong.len()].copy_from_slice(wrong.as_bytes());
                written = Ok(wrong.len() as u64);
            }
            match fault {
                "text_ends_in_a_zero_byte" if text.len() > length => text[length] = 0,
                "text_stands_at_the_end" => text.rotate_left(length),
                "keeps_state_between_calls" => written = Ok(kept(length as u64)),
                _ => {}
            }
        }
        Err(refusal) if refusal.number == 21 => match fault {
            "text_is_written_without_room" => {
                let own = text_of(bytes);
                text.copy_from_slice(&own.as_bytes()[..text.len()]);
            }
            "text_room_carries_what_is_missing" => {
                let carried = [refusal.carried[0] - text.len() as u64, 0, 0];
                written = Err(Refusal { carried, ..refusal });
            }
            "text_room_has_a_place" => written = Err(Refusal { place: text.len() as u64, ..refusal }),
            _ => {}
        },
        Err(_) => {}
    }
    Report::of_text(&written).write_to(answer)
}
