//! A read or a write outside of what a call is given, told as a difference: the case that was asked is printed, and
//! the process ends with the status of a difference.

use std::cell::Cell;
use std::ffi::c_void;

extern "C" {
    fn signal(number: i32, handler: usize) -> usize;
    fn write(file: i32, from: *const c_void, bytes: usize) -> isize;
    fn _exit(status: i32) -> !;
}

const BUS: i32 = 7;
const SEGMENT: i32 = 11;
const AS_USUAL: usize = 0;
const STANDARD_OUTPUT: i32 = 1;

/// What is asked, in words.
type Words<'a> = &'a dyn Fn() -> String;

thread_local! {
    static ASKED: Cell<Option<*const Words<'static>>> = const { Cell::new(None) };
}

/// From now on a fault while something is asked is told.
pub fn set() {
    for number in [BUS, SEGMENT] {
        // SAFETY: the handler leaves the process, or goes back to what would have been.
        unsafe { signal(number, told as *const () as usize) };
    }
}

/// Makes some calls; `words` says which, should they be stopped by a fault.
pub fn while_asked<R>(words: Words, calls: impl FnOnce() -> R) -> R {
    let before = ASKED.replace(Some((&raw const words).cast()));
    let result = calls();
    ASKED.set(before);
    result
}

/// The library allocates nothing and holds no lock, so that what it is stopped in can be told at leisure.
extern "C" fn told(number: i32) {
    let Some(words) = ASKED.take() else {
        // It is the harness's own: the instruction that failed is tried again, and ends the process.
        // SAFETY: what was before the handler was set.
        unsafe { signal(number, AS_USUAL) };
        return;
    };
    // SAFETY: they are borrowed as long as the calls go on, and one of these was stopped.
    let words = unsafe { (*words)() };
    let text =
        format!("DIFFERENCE: a call reads or writes outside of the slices that it is given (signal {number})\n{words}\n");
    // SAFETY: the text is as long as it says; nothing comes back from the exit.
    unsafe {
        write(STANDARD_OUTPUT, text.as_ptr().cast(), text.len());
        _exit(1)
    }
}
