//! Safe calls of the functions that the crate `bench_api` exports: parts of the library that C programs do not see.
use crate::vhdx::{facts_in, Slots};
use vhdx_model::Facts;

pub use vhdx_model::Sector;

extern "C" {
    fn shrunvaki_bench_crc32c(bytes: *const u8, length: usize) -> u32;
    fn shrunvaki_bench_sector(
        buffer: *const u8,
        capacity: usize,
        length: u64,
        k: u64,
        answer: *mut u64,
    ) -> u64;
    fn shrunvaki_bench_tables(
        image: *const u8,
        length: usize,
        log_offset: u64,
        log_length: u64,
        answer: *mut u64,
    ) -> u64;
}

pub fn crc32c(bytes: &[u8]) -> u32 {
    // SAFETY: the function reads `length` bytes from the pointer on, which are the slice's.
    unsafe { shrunvaki_bench_crc32c(bytes.as_ptr(), bytes.len()) }
}

/// Sector number k of the plan.
pub fn sector(buffer: &[u8], length: u64, k: u64) -> Option<Sector> {
    let mut answer = [0u64; 3];
    // SAFETY: as above; of the answer at most three numbers are written, which it has.
    let kind = unsafe {
        shrunvaki_bench_sector(
            buffer.as_ptr(),
            buffer.len(),
            length,
            k,
            answer.as_mut_ptr(),
        )
    };
    match kind {
        0 => None,
        1 => Some(Sector::Zeros { offset: answer[0] }),
        _ => Some(Sector::Data {
            offset: answer[0],
            descriptor: answer[1],
            sector: answer[2],
        }),
    }
}

/// The facts of an image whose log is here and applied, or the refusal's number. With a refusal come facts that are all zero,
/// which this asserts, and that the slots of no fact are left.
pub fn tables(image: &[u8], log: (u64, u64)) -> Result<Facts, u64> {
    // not zero before, so that a zero is one that was written
    let mut answer: Slots = [u64::MAX; 32];
    // SAFETY: as above; the answer has the 32 numbers that may be written.
    let refusal = unsafe {
        shrunvaki_bench_tables(
            image.as_ptr(),
            image.len(),
            log.0,
            log.1,
            answer.as_mut_ptr(),
        )
    };
    assert_eq!(answer[..3], [u64::MAX; 3], "slots 0 to 2");
    assert_eq!(answer[16..], [u64::MAX; 16], "slots 16 to 31");
    let facts = facts_in(&answer);
    match refusal {
        0 => Ok(facts),
        _ => {
            assert_eq!(facts, Facts::default(), "facts beside refusal {refusal}");
            Err(refusal)
        }
    }
}
