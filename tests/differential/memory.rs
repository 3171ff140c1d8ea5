//! Memory lent to the library, between pages that may not be touched.

use std::ffi::c_void;
use std::ptr;
use std::slice;

extern "C" {
    fn mmap(at: *mut c_void, length: usize, protection: i32, flags: i32, file: i32, offset: i64) -> *mut c_void;
    fn mprotect(at: *mut c_void, length: usize, protection: i32) -> i32;
    fn signal(number: i32, handler: extern "C" fn(i32)) -> usize;
}

const NO_ACCESS: i32 = 0;
const READ: i32 = 1;
const READ_AND_WRITE: i32 = 3;
const PRIVATE_AND_ANONYMOUS: i32 = 0x22;
const PAGE: usize = 4096;
/// The signals of a forbidden access.
const FORBIDDEN_ACCESS: [i32; 2] = [7, 11];

/// What an output holds before a call. It is no level, so that a stray level is seen.
pub const FILL: u8 = 0xA5;

/// Call the handler, which must not return, when memory is touched that may not be.
pub fn on_forbidden_access(handler: extern "C" fn(i32)) {
    for number in FORBIDDEN_ACCESS {
        unsafe { signal(number, handler) };
    }
}

/// Where the slice lies in its pages: an access just before the first, or just behind the last, ends the program.
#[derive(Clone, Copy, Debug, PartialEq, Eq)]
pub enum Place {
    AtStart,
    AtEnd,
}

/// Pages with one page without access before and one behind. They stay mapped until the program ends.
pub struct Pages {
    start: *mut u8,
    length: usize,
    protection: i32,
}

impl Pages {
    pub fn new(pages: usize) -> Pages {
        let whole = (pages + 2) * PAGE;
        // Fresh anonymous memory, without access; the inner pages get theirs in `protect`.
        let mapped = unsafe { mmap(ptr::null_mut(), whole, NO_ACCESS, PRIVATE_AND_ANONYMOUS, -1, 0) };
        assert!(mapped as isize != -1, "no memory");
        Pages { start: unsafe { mapped.cast::<u8>().add(PAGE) }, length: pages * PAGE, protection: NO_ACCESS }
    }

    fn protect(&mut self, protection: i32) {
        if self.protection != protection {
            let answer = unsafe { mprotect(self.start.cast(), self.length, protection) };
            assert!(answer == 0, "memory protection refused");
            self.protection = protection;
        }
    }

    fn offset(&self, length: usize, place: Place) -> usize {
        assert!(length <= self.length, "a case longer than its pages");
        match place {
            Place::AtStart => 0,
            Place::AtEnd => self.length - length,
        }
    }

    /// The bytes, read-only.
    pub fn input(&mut self, bytes: &[u8], place: Place) -> &[u8] {
        let offset = self.offset(bytes.len(), place);
        if bytes.is_empty() {
            return &[];
        }
        self.protect(READ_AND_WRITE);
        // The pages are ours, are writable now, and hold offset + length bytes.
        let copy = unsafe { slice::from_raw_parts_mut(self.start.add(offset), bytes.len()) };
        copy.copy_from_slice(bytes);
        self.protect(READ);
        copy
    }

    /// So many bytes to write to, filled like all the rest of the pages.
    pub fn output(&mut self, length: usize, place: Place) -> &mut [u8] {
        let offset = self.offset(length, place);
        self.protect(READ_AND_WRITE);
        let all = unsafe { slice::from_raw_parts_mut(self.start, self.length) };
        all.fill(FILL);
        &mut all[offset..offset + length]
    }

    /// After a call: the output's bytes, and whether the pages around them are still as they were filled.
    pub fn after(&self, length: usize, place: Place) -> (Vec<u8>, bool) {
        let offset = self.offset(length, place);
        let all = unsafe { slice::from_raw_parts(self.start, self.length) };
        let around = all[..offset].iter().chain(&all[offset + length..]);
        (all[offset..offset + length].to_vec(), around.fold(true, |untouched, &byte| untouched & (byte == FILL)))
    }
}
