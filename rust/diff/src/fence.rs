//! Slices between pages that nobody may read or write, so that a call that leaves one is stopped there: most begin
//! at an odd address, some end at the page after them, some begin at the one before.

use std::cell::{Cell, RefCell};
use std::ffi::c_void;
use std::ops::{Add, Deref, DerefMut, Range};
use std::{fmt, ptr, slice};

extern "C" {
    fn mmap(at: *mut c_void, bytes: usize, may: i32, how: i32, file: i32, offset: i64) -> *mut c_void;
    fn mprotect(at: *mut c_void, bytes: usize, may: i32) -> i32;
    fn munmap(at: *mut c_void, bytes: usize) -> i32;
}

const NOT_AT_ALL: i32 = 0;
const READ: i32 = 1;
const READ_AND_WRITE: i32 = 3;
const PRIVATE_AND_NO_FILE: i32 = 0x22;

/// Whole pages, on machines with larger ones too.
const FENCE: usize = 65_536;

/// What most slices have room in. Pages that are never touched cost nothing.
const ROOM: usize = 512 * FENCE;

/// Memory between two fences.
pub struct Fenced {
    start: *mut u8,
    room: usize,
}

// SAFETY: the memory is its owner's alone, and an owner may go to another thread or lend it for reading.
unsafe impl Send for Fenced {}
unsafe impl Sync for Fenced {}

impl Fenced {
    /// Room for so many bytes at least; none where it can't be had.
    pub fn new(bytes: usize) -> Option<Self> {
        let room = bytes.max(1).next_multiple_of(FENCE);
        // SAFETY: memory that nobody else has, of which the pages in the middle are opened.
        unsafe {
            let all = mmap(ptr::null_mut(), room + 2 * FENCE, NOT_AT_ALL, PRIVATE_AND_NO_FILE, -1, 0);
            if all as isize == -1 {
                return None;
            }
            let fenced = Self { start: all.cast::<u8>().add(FENCE), room };
            (mprotect(fenced.start.cast(), room, READ_AND_WRITE) == 0).then_some(fenced)
        }
    }

    /// All that lies between the fences.
    pub fn bytes(&mut self) -> &mut [u8] {
        // SAFETY: so many bytes are open, and the borrow is the only one.
        unsafe { slice::from_raw_parts_mut(self.start, self.room) }
    }

    fn at(&self, range: &Range<usize>) -> &[u8] {
        // SAFETY: so many bytes can be read, and nobody writes them while they are lent for reading.
        unsafe { slice::from_raw_parts(self.start.add(range.start), range.len()) }
    }
}

impl Drop for Fenced {
    fn drop(&mut self) {
        // SAFETY: it was mapped with this length, and nobody has a part of it any more.
        unsafe { munmap(self.start.sub(FENCE).cast(), self.room + 2 * FENCE) };
    }
}

/// Where a slice lies.
#[derive(Debug, Clone, Copy, PartialEq, Eq)]
pub enum Place {
    /// At the last odd address that it has room at: one byte before the fence, or against it.
    Odd,
    /// Against the fence after it.
    End,
    /// Against the fence before it.
    Start,
}

use Place::{End, Odd, Start};

const PLACES: [Place; 8] = [Odd, End, Odd, Start, Odd, End, Odd, Odd];

impl Place {
    fn of(self, room: usize, bytes: usize) -> Range<usize> {
        let start = match self {
            Start => 0,
            End => room - bytes,
            Odd => room - bytes - usize::from(bytes % 2 == 0),
        };
        start..start + bytes
    }
}

/// How many slices there were, and of them those against a fence and those at an odd address.
#[derive(Debug, Clone, Copy, Default)]
pub struct Slices {
    pub all: u64,
    pub at_end: u64,
    pub at_start: u64,
    pub odd: u64,
}

impl Slices {
    fn count(&mut self, room: usize, range: &Range<usize>) {
        self.all += 1;
        self.at_end += u64::from(range.end == room);
        self.at_start += u64::from(range.start == 0);
        // The fences lie at even addresses.
        self.odd += u64::from(range.start % 2 == 1);
    }
}

impl Add for Slices {
    type Output = Self;

    fn add(self, more: Self) -> Self {
        Self {
            all: self.all + more.all,
            at_end: self.at_end + more.at_end,
            at_start: self.at_start + more.at_start,
            odd: self.odd + more.odd,
        }
    }
}

impl fmt::Display for Slices {
    fn fmt(&self, out: &mut fmt::Formatter<'_>) -> fmt::Result {
        let Slices { all, at_end, at_start, odd } = self;
        write!(
            out,
            "slices between unreadable pages: {all}, of which {at_end} end at one, {at_start} begin at one and \
             {odd} begin at an odd address,"
        )
    }
}

thread_local! {
    /// What is held by nobody at the moment.
    static FREE: RefCell<Vec<Fenced>> = const { RefCell::new(Vec::new()) };
    static COUNTED: Cell<Slices> = Cell::new(Slices::default());
}

/// The slices that this thread has held so far.
pub fn counted() -> Slices {
    COUNTED.get()
}

/// A slice between fences.
pub struct Held {
    /// None only while it is dropped.
    fenced: Option<Fenced>,
    range: Range<usize>,
}

impl Held {
    pub fn new(bytes: &[u8], place: Place) -> Self {
        let free = || FREE.with_borrow_mut(Vec::pop).or_else(|| Fenced::new(ROOM));
        let fenced = if bytes.len() < ROOM { free() } else { Fenced::new(bytes.len() + 1) };
        Self::within(fenced, bytes, place)
    }

    fn within(fenced: Option<Fenced>, bytes: &[u8], place: Place) -> Self {
        let mut fenced = fenced.expect("there is memory for a case");
        let range = place.of(fenced.room, bytes.len());
        fenced.bytes()[range.clone()].copy_from_slice(bytes);
        let mut counted = COUNTED.get();
        counted.count(fenced.room, &range);
        COUNTED.set(counted);
        Self { fenced: Some(fenced), range }
    }

    fn fenced(&self) -> &Fenced {
        self.fenced.as_ref().expect("it is not dropped")
    }
}

impl Deref for Held {
    type Target = [u8];

    fn deref(&self) -> &[u8] {
        self.fenced().at(&self.range)
    }
}

impl DerefMut for Held {
    fn deref_mut(&mut self) -> &mut [u8] {
        let range = self.range.clone();
        &mut self.fenced.as_mut().expect("it is not dropped").bytes()[range]
    }
}

impl Drop for Held {
    fn drop(&mut self) {
        if let Some(fenced) = self.fenced.take().filter(|fenced| fenced.room == ROOM) {
            FREE.with_borrow_mut(|free| free.push(fenced));
        }
    }
}

/// Memory between fences that short slices are laid in one after another, where they are too many for each to have its
/// own.
pub struct Spot(Fenced);

impl Spot {
    pub fn new() -> Self {
        Self(Fenced::new(FENCE).expect("there is memory for short slices"))
    }

    /// These bytes at a place of it.
    pub fn hold(&mut self, bytes: &[u8], place: Place) -> &mut [u8] {
        let range = place.of(self.0.room, bytes.len());
        let mut counted = COUNTED.get();
        counted.count(self.0.room, &range);
        COUNTED.set(counted);
        let held = &mut self.0.bytes()[range];
        held.copy_from_slice(bytes);
        held
    }
}

/// A slice that can't be written while it lives, and that threads may share.
pub struct ReadOnly(Held);

impl ReadOnly {
    pub fn new(bytes: &[u8], place: Place) -> Self {
        let held = Held::within(Fenced::new(bytes.len() + 1), bytes, place);
        // SAFETY: these pages are its own, and no slice of them that could be written is borrowed.
        let closed = unsafe { mprotect(held.fenced().start.cast(), held.fenced().room, READ) };
        assert_eq!(closed, 0, "pages can be closed");
        Self(held)
    }
}

impl Deref for ReadOnly {
    type Target = [u8];

    fn deref(&self) -> &[u8] {
        &self.0
    }
}

impl Drop for ReadOnly {
    fn drop(&mut self) {
        // The memory goes back to the system: nobody may take it for writing.
        drop(self.0.fenced.take());
    }
}

/// Places for the slices of one case, by its number: the same ones whenever it is asked.
#[derive(Debug)]
pub struct Turn(Cell<u64>);

impl Turn {
    pub fn new(number: u64) -> Self {
        // All bits of it depend on all of the number's.
        Self(Cell::new(number.wrapping_add(1).wrapping_mul(0x9E37_79B9_7F4A_7C15)))
    }

    pub fn place(&self) -> Place {
        let bits = self.0.get();
        self.0.set(bits.rotate_left(11).wrapping_mul(0xBF58_476D_1CE4_E5B9));
        PLACES[(bits >> 61) as usize]
    }

    /// A slice of these bytes at the next place.
    pub fn hold(&self, bytes: &[u8]) -> Held {
        Held::new(bytes, self.place())
    }
}

#[cfg(test)]
mod tests {
    use super::*;

    #[test]
    fn slices_lie_where_they_should() {
        for length in [0, 1, 2, 16, 17, 4_096, ROOM - 1, ROOM, ROOM + 1] {
            let bytes = vec![7; length];
            let at = |place: Place| {
                let held = Held::new(&bytes, place);
                assert!(*held == *bytes);
                let (start, room) = (held.fenced().start as usize, held.fenced().room);
                let own = held.as_ptr() as usize;
                (own - start, start + room - own - length, own)
            };
            assert_eq!((at(Start).0, at(End).1), (0, 0));
            let (_, after, own) = at(Odd);
            assert!(own % 2 == 1 && after < 2);
        }
        let counted = counted();
        assert_eq!(counted.all, 27);
        assert!(counted.at_end >= 9 && counted.at_start >= 9 && counted.odd >= 9);
    }

    #[test]
    fn a_spot_is_used_again_and_again() {
        let mut spot = Spot::new();
        for (place, length) in [(Start, 3), (End, 12), (Odd, 4), (Odd, 5), (End, 0)] {
            let bytes = vec![7; length];
            assert!(*spot.hold(&bytes, place) == *bytes);
        }
        let Slices { all, at_end, at_start, odd } = counted();
        assert_eq!((all, at_start), (5, 1));
        assert!(at_end >= 3 && odd >= 2);
    }

    #[test]
    fn most_addresses_are_odd_and_both_fences_are_met() {
        for number in 0..10_000 {
            let turn = Turn::new(number);
            (0..8).for_each(|slice| drop(turn.hold(&vec![0; 16 * slice])));
        }
        let Slices { all, at_end, at_start, odd } = counted();
        assert_eq!(all, 80_000);
        assert!(odd > all / 2 && at_end > all / 5 && at_start > all / 10, "{odd} {at_end} {at_start}");
    }
}
