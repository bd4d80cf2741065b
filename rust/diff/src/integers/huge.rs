//! The text of an integer with slices of 4,294,967,295 bytes and of one more: so many bytes are no integer, and a text
//! stands at the start of the slice however long that is.

use plain::integer::write_text;
use plain::report::Report;
use skiff::sys;

use crate::in_process::huge::{same, zeros, Right, BOUND};
use crate::in_process::Reply;
use crate::trap;

fn both(bytes: &[u8], text: &mut [u8]) -> Right {
    let wanted = Reply::near([&mut *text, &mut []], |text, _, answer| {
        Report::of_text(&write_text(bytes, text)).write_to(answer)
    });
    let got = Reply::near([text, &mut []], |text, _, answer| sys::integer_text(bytes, text, answer));
    same("the text of an integer", wanted, got)
}

/// None where there is no room for such slices.
pub fn check() -> Option<Right> {
    let (mut zeros, mut lent) = (zeros()?, zeros()?);
    Some(trap::while_asked(&|| "a slice of 4,294,967,295 bytes or one more".to_owned(), || {
        let (zeros, lent) = (zeros.bytes(), lent.bytes());
        let mut right = 0;
        for bytes in [BOUND, BOUND + 1] {
            right += both(&zeros[..bytes], &mut [0; 80])?;
            for number in [&[0xFF][..], &[0x80; 32], &[], &[1; 33]] {
                right += both(number, &mut lent[..bytes])?;
            }
        }
        Ok(right)
    }))
}
