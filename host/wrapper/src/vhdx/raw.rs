//! The calls over slices and arrays of numbers, as `include/shrunvaki.h` says of them. [`super::Image`] is the same with names.
//!
//! Each hands back the number that the function returns, and its answer.
use shrunvaki_sys as sys;

/// What attach answers, and what lookup and parent key take: refusal, length, count, and the facts in slots 3 to 15.
pub type Slots = [u64; 32];

/// The log's work in pieces, between two requests. What the numbers mean is the library's own.
pub type Machine = [u64; 64];

/// No answer holds it where it has to hold a zero: a slot that is not written shows.
const UNWRITTEN: u64 = u64::MAX;

/// Applies the log of the image that is the first `length` bytes of the buffer, and reads its tables.
pub fn attach(buffer: &mut [u8], length: u64) -> (u64, Slots) {
    let mut answer = [UNWRITTEN; 32];
    // SAFETY: the function reads and writes `capacity` bytes from the pointer on, which are the slice's, and writes the answer.
    let refusal = unsafe {
        sys::shrunvaki_vhdx_attach(buffer.as_mut_ptr(), buffer.len(), length, &mut answer)
    };
    (refusal, answer)
}

/// What attach would do: refusal 1 to 8 or 0, final length, count of sectors, 0. Nothing is written.
pub fn plan(buffer: &[u8], length: u64) -> (u64, [u64; 4]) {
    let mut answer = [UNWRITTEN; 4];
    // SAFETY: the function reads `capacity` bytes from the pointer on, which are the slice's, and writes the answer.
    let refusal =
        unsafe { sys::shrunvaki_vhdx_plan(buffer.as_ptr(), buffer.len(), length, &mut answer) };
    (refusal, answer)
}

/// Does step `k` of the log's work alone: growth for 0, one sector for any other. Answers the refusal and the length.
pub fn step(buffer: &mut [u8], length: u64, k: u64) -> (u64, [u64; 2]) {
    let mut answer = [UNWRITTEN; 2];
    // SAFETY: as for attach.
    let refusal = unsafe {
        sys::shrunvaki_vhdx_step(buffer.as_mut_ptr(), buffer.len(), length, k, &mut answer)
    };
    (refusal, answer)
}

/// Applies the log, then rewrites the header that is not current: no log, and this file-write identifier. Answers the refusal, the
/// length and the count of sectors, the header not counted.
pub fn close(buffer: &mut [u8], length: u64, identifier: &[u8; 16]) -> (u64, [u64; 3]) {
    let mut answer = [UNWRITTEN; 3];
    // SAFETY: as for attach; the identifier's 16 bytes are read.
    let refusal = unsafe {
        sys::shrunvaki_vhdx_close(
            buffer.as_mut_ptr(),
            buffer.len(),
            length,
            identifier,
            &mut answer,
        )
    };
    (refusal, answer)
}

/// Does step `k` of closing alone: those of the log's work, then the header's. Answers the refusal and the length.
pub fn close_step(
    buffer: &mut [u8],
    length: u64,
    identifier: &[u8; 16],
    k: u64,
) -> (u64, [u64; 2]) {
    let mut answer = [UNWRITTEN; 2];
    // SAFETY: as for close.
    let refusal = unsafe {
        sys::shrunvaki_vhdx_close_step(
            buffer.as_mut_ptr(),
            buffer.len(),
            length,
            identifier,
            k,
            &mut answer,
        )
    };
    (refusal, answer)
}

/// Starts the log's work in pieces for a file of a length, which may grow to a capacity. The answer: 0 refused, 1 read, 2 grow, 3
/// write, 4 done; then the refusal's number, an offset, a length, an offset, or the final length; then the bytes wanted after a 1,
/// 1 for data and 0 for zeros after a 3, the count of sectors after a 4; and 0.
pub fn pieces_start(length: u64, capacity: u64) -> (u64, Machine, [u64; 4]) {
    let mut machine = [UNWRITTEN; 64];
    let mut answer = [UNWRITTEN; 4];
    // SAFETY: the function writes the machine and the answer.
    let refusal =
        unsafe { sys::shrunvaki_vhdx_pieces_start(length, capacity, &mut machine, &mut answer) };
    (refusal, machine, answer)
}

/// Goes on: after a 1 the piece begins with the bytes that were wanted, and at a 3 with the 4,096 to write. The answer's first
/// number is also 5, for numbers that no machine has: then nothing is changed.
pub fn pieces_next(machine: &mut Machine, piece: &mut [u8; 65536]) -> (u64, [u64; 4]) {
    let mut answer = [UNWRITTEN; 4];
    // SAFETY: the function reads and writes the machine and the piece, and writes the answer.
    let refusal = unsafe { sys::shrunvaki_vhdx_pieces_next(machine, piece, &mut answer) };
    (refusal, answer)
}

/// Where a sector is: 0 refused, 1 in the file, 2 zero, 3 in the parent; then the refusal's number, the offset in the file, or 0.
#[inline]
pub fn lookup(facts: &Slots, buffer: &[u8], length: u64, sector: u64) -> (u64, [u64; 2]) {
    let mut answer = [UNWRITTEN; 2];
    // SAFETY: as for plan; the facts are read.
    let refusal = unsafe {
        sys::shrunvaki_vhdx_lookup(
            facts,
            buffer.as_ptr(),
            buffer.len(),
            length,
            sector,
            &mut answer,
        )
    };
    (refusal, answer)
}

/// Where the value under a key of the parent locator is: offset from the image's start and length, 0 and 0 where there is none.
pub fn parent_key(facts: &Slots, buffer: &[u8], length: u64, key: &[u8]) -> [u64; 2] {
    let mut answer = [UNWRITTEN; 2];
    // SAFETY: as for lookup; of the key `key_length` bytes are read, which it has.
    unsafe {
        sys::shrunvaki_vhdx_parent_key(
            facts,
            buffer.as_ptr(),
            buffer.len(),
            length,
            key.as_ptr(),
            key.len(),
            &mut answer,
        )
    };
    answer
}
