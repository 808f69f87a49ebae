//! The library's functions as C has them, each behind a function that lends it slices. Nothing else in the crate is
//! unsafe.
//!
//! What the library promises, and is proved: it reads `len` bytes from a pointer to bytes, writes only into what it is
//! lent for its answer and no further than the length given, keeps no pointer, and answers every input. A slice's
//! pointer is never null, also where it is empty.

#[link(name = "terminal", kind = "static")]
extern "C" {
    fn tasgilfrem_step(text: *const u8, len: usize, mode: u8, place: usize, out: *mut u16) -> u64;
    fn tasgilfrem_parse(text: *const u8, len: usize, mode: u8, cells: *mut u16, count: usize) -> u64;
    fn tasgilfrem_canonical(text: *const u8, len: usize, out: *mut u8, room: usize) -> u64;
    fn tasgilfrem_list(file: *const u8, len: usize) -> u64;
    fn tasgilfrem_entry(file: *const u8, len: usize, index: usize) -> u64;
    fn tasgilfrem_choice(
        text: *const u8,
        len: usize,
        mode: u8,
        file: *const u8,
        size: usize,
        budget: u64,
        out: *mut u64,
    ) -> u64;
    fn tasgilfrem_listing(
        text: *const u8,
        len: usize,
        mode: u8,
        file: *const u8,
        size: usize,
        cursor: u64,
        budget: u64,
        out: *mut u64,
    ) -> u64;
    fn tasgilfrem_found(text: *const u8, len: usize, mode: u8, file: *const u8, size: usize, out: *mut u8) -> u64;
    fn tasgilfrem_name(part: u8, place: usize, out: *mut u8, room: usize) -> u64;
}

pub(crate) fn step(text: &[u8], mode: u8, place: usize, out: &mut [u16; 10]) -> u64 {
    // SAFETY: `text` is readable for its length; `out` has the ten cells that are written, and is borrowed alone.
    unsafe { tasgilfrem_step(text.as_ptr(), text.len(), mode, place, out.as_mut_ptr()) }
}

pub(crate) fn parse(text: &[u8], mode: u8, cells: &mut [u16]) -> u64 {
    // SAFETY: `text` is readable for its length, `cells` is writable for its length and borrowed alone.
    unsafe { tasgilfrem_parse(text.as_ptr(), text.len(), mode, cells.as_mut_ptr(), cells.len()) }
}

pub(crate) fn canonical(text: &[u8], out: &mut [u8]) -> u64 {
    // SAFETY: `text` is readable for its length, `out` is writable for its length and borrowed alone.
    unsafe { tasgilfrem_canonical(text.as_ptr(), text.len(), out.as_mut_ptr(), out.len()) }
}

pub(crate) fn list(file: &[u8]) -> u64 {
    // SAFETY: `file` is readable for its length, and nothing is written.
    unsafe { tasgilfrem_list(file.as_ptr(), file.len()) }
}

pub(crate) fn entry(file: &[u8], index: usize) -> u64 {
    // SAFETY: `file` is readable for its length, and nothing is written.
    unsafe { tasgilfrem_entry(file.as_ptr(), file.len(), index) }
}

pub(crate) fn choice(text: &[u8], mode: u8, file: &[u8], budget: u64, out: &mut u64) -> u64 {
    // SAFETY: `text` and `file` are readable for their lengths; `out` is the one number written, and is borrowed alone.
    unsafe { tasgilfrem_choice(text.as_ptr(), text.len(), mode, file.as_ptr(), file.len(), budget, out) }
}

pub(crate) fn listing(text: &[u8], mode: u8, file: &[u8], cursor: u64, budget: u64, out: &mut [u64; 2]) -> u64 {
    let (at, size) = (file.as_ptr(), file.len());
    // SAFETY: `text` and `file` are readable for their lengths; `out` has the two numbers written, and is borrowed alone.
    unsafe { tasgilfrem_listing(text.as_ptr(), text.len(), mode, at, size, cursor, budget, out.as_mut_ptr()) }
}

pub(crate) fn found(text: &[u8], mode: u8, file: &[u8], out: &mut [u8; 30]) -> u64 {
    // SAFETY: `text` and `file` are readable for their lengths; `out` has all bytes written, and is borrowed alone.
    unsafe { tasgilfrem_found(text.as_ptr(), text.len(), mode, file.as_ptr(), file.len(), out.as_mut_ptr()) }
}

pub(crate) fn name(part: u8, place: usize, out: &mut [u8]) -> u64 {
    // SAFETY: `out` is writable for its length and borrowed alone.
    unsafe { tasgilfrem_name(part, place, out.as_mut_ptr(), out.len()) }
}
