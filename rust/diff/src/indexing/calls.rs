//! The library's index calls over one stream.

use plain::settings::Settings;
use skiff::sys::{self, Numbers};
use skiff::Format;

use crate::in_process;

/// What each call is given first: settings, format and stream.
#[derive(Debug, Clone, Copy)]
pub struct Streamed<'a> {
    pub settings: Settings,
    /// Records, names, references, registry, input.
    pub slices: [&'a [u8]; 5],
}

impl<'a> Streamed<'a> {
    pub fn numbers(&self) -> Numbers {
        in_process::numbers(self.settings)
    }

    pub fn format(&self) -> Format<'a> {
        let [records, names, references, registry, _] = self.slices;
        Format { records, names, references, registry }
    }

    pub fn input(&self) -> &'a [u8] {
        self.slices[4]
    }

    pub fn build_index(&self, index: &mut [u8], answer: &mut [u8]) -> u32 {
        sys::build_index(self.numbers(), &self.format(), self.input(), index, answer)
    }

    pub fn check_index(&self, index: &[u8], answer: &mut [u8]) -> u32 {
        sys::check_index(self.numbers(), &self.format(), self.input(), index, answer)
    }

    pub fn extend_index(&self, old: u64, index: &mut [u8], answer: &mut [u8]) -> u32 {
        sys::extend_index(self.numbers(), &self.format(), self.input(), old, index, answer)
    }

    /// `lent` is the record slice and the payload slice.
    pub fn decode_indexed(&self, index: &[u8], row: u64, lent: [&mut [u8]; 2], answer: &mut [u8]) -> u32 {
        let [records, payload] = lent;
        sys::decode_indexed(
            self.numbers(),
            &self.format(),
            self.input(),
            index,
            row,
            records,
            payload,
            answer,
        )
    }
}
