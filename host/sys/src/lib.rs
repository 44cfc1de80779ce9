//! The proved library's functions, as `include/shrunvaki.h` declares them and says what they do. [`shrunvaki::vhdx`] has safe ones.
//!
//! What a caller owes: the buffer has `capacity` bytes and the key `key_length`, arrays have the numbers or bytes that their types say, none
//! shares a byte with another, and nobody else writes to them, or reads what is written, during the call. All else may be anything.
//!
//! [`shrunvaki::vhdx`]: ../shrunvaki/vhdx/index.html
#![no_std]

extern "C" {
    pub fn shrunvaki_vhdx_attach(
        buffer: *mut u8,
        capacity: usize,
        length: u64,
        answer: *mut [u64; 32],
    ) -> u64;
    pub fn shrunvaki_vhdx_plan(
        buffer: *const u8,
        capacity: usize,
        length: u64,
        answer: *mut [u64; 4],
    ) -> u64;
    pub fn shrunvaki_vhdx_step(
        buffer: *mut u8,
        capacity: usize,
        length: u64,
        k: u64,
        answer: *mut [u64; 2],
    ) -> u64;
    pub fn shrunvaki_vhdx_close(
        buffer: *mut u8,
        capacity: usize,
        length: u64,
        identifier: *const [u8; 16],
        answer: *mut [u64; 3],
    ) -> u64;
    pub fn shrunvaki_vhdx_close_step(
        buffer: *mut u8,
        capacity: usize,
        length: u64,
        identifier: *const [u8; 16],
        k: u64,
        answer: *mut [u64; 2],
    ) -> u64;
    pub fn shrunvaki_vhdx_pieces_start(
        length: u64,
        capacity: u64,
        machine: *mut [u64; 64],
        answer: *mut [u64; 4],
    ) -> u64;
    pub fn shrunvaki_vhdx_pieces_next(
        machine: *mut [u64; 64],
        piece: *mut [u8; 65536],
        answer: *mut [u64; 4],
    ) -> u64;
    pub fn shrunvaki_vhdx_lookup(
        facts: *const [u64; 32],
        buffer: *const u8,
        capacity: usize,
        length: u64,
        sector: u64,
        answer: *mut [u64; 2],
    ) -> u64;
    pub fn shrunvaki_vhdx_parent_key(
        facts: *const [u64; 32],
        buffer: *const u8,
        capacity: usize,
        length: u64,
        key: *const u8,
        key_length: usize,
        answer: *mut [u64; 2],
    );
}
