//! Little-endian numbers in bytes, and the sizes that the format counts in. Callers read inside what they have.

pub const MIB: u64 = 1 << 20;
pub const TIB: u64 = 1 << 40;

/// The log's unit.
pub const SECTOR: usize = 4096;

pub fn array<const N: usize>(bytes: &[u8], at: usize) -> [u8; N] {
    bytes[at..at + N].try_into().expect("N bytes")
}

pub fn number16(bytes: &[u8], at: usize) -> u16 {
    u16::from_le_bytes(array(bytes, at))
}

pub fn number32(bytes: &[u8], at: usize) -> u32 {
    u32::from_le_bytes(array(bytes, at))
}

pub fn number64(bytes: &[u8], at: usize) -> u64 {
    u64::from_le_bytes(array(bytes, at))
}
