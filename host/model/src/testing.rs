//! Images for this package's own tests.
use crate::bytes::{MIB, SECTOR};
use crate::crc::seal;

pub const LOG_ID: [u8; 16] = [7; 16];

pub fn put(bytes: &mut [u8], at: u64, value: &[u8]) {
    bytes[at as usize..][..value.len()].copy_from_slice(value);
}

/// A buffer with a header whose log is 1 MiB at 1 MiB.
pub fn buffer(capacity: u64, log_id: [u8; 16]) -> Vec<u8> {
    let mut buffer = vec![0; capacity as usize];
    put(&mut buffer, 0, b"vhdxfile");
    let header = &mut buffer[65536..65536 + SECTOR];
    put(header, 0, b"head");
    put(header, 48, &log_id);
    put(header, 66, &1u16.to_le_bytes());
    put(header, 68, &(MIB as u32).to_le_bytes());
    put(header, 72, &MIB.to_le_bytes());
    seal(header);
    buffer
}

/// An entry that is its own tail: number 1, and zero descriptors by offset and length.
pub fn log_entry(flushed: u64, last: u64, zeros: &[(u64, u64)]) -> Vec<u8> {
    let mut entry = vec![0; (64 + 32 * zeros.len()).next_multiple_of(SECTOR)];
    let length = entry.len() as u32;
    put(&mut entry, 0, b"loge");
    put(&mut entry, 8, &length.to_le_bytes());
    put(&mut entry, 16, &1u64.to_le_bytes());
    put(&mut entry, 24, &(zeros.len() as u32).to_le_bytes());
    put(&mut entry, 32, &LOG_ID);
    put(&mut entry, 48, &flushed.to_le_bytes());
    put(&mut entry, 56, &last.to_le_bytes());
    for (descriptor, &(offset, length)) in entry[64..].chunks_mut(32).zip(zeros) {
        put(descriptor, 0, b"zero");
        put(descriptor, 8, &length.to_le_bytes());
        put(descriptor, 16, &offset.to_le_bytes());
        put(descriptor, 24, &1u64.to_le_bytes());
    }
    seal(&mut entry);
    entry
}
