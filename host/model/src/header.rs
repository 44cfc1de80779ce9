//! The two headers, and which of them is current.
use crate::bytes::{array, number16, number32, number64, MIB, SECTOR};
use crate::{crc, Extent};

const OFFSETS: [usize; 2] = [65536, 131072];

/// House limit.
const LONGEST_LOG: u64 = 64 * MIB;

/// Where a header is, and what it says as far as rules name it.
#[derive(Clone, Copy)]
pub struct Header {
    pub offset: usize,
    pub number: u64,
    pub log_id: [u8; 16],
    log_version: u16,
    version: u16,
    pub log: Extent,
}

impl Header {
    /// "The only valid one, or the valid one with the greater sequence number." With equal numbers none is current.
    pub fn current(image: &[u8]) -> Option<Header> {
        match OFFSETS.map(|offset| Header::valid(image, offset)) {
            [Some(a), Some(b)] if a.number == b.number => None,
            [Some(a), Some(b)] => Some(if a.number > b.number { a } else { b }),
            [a, b] => a.or(b),
        }
    }

    /// "Valid if it begins "head" and its CRC-32C agrees." Fields are not judged yet.
    fn valid(image: &[u8], offset: usize) -> Option<Header> {
        let bytes = &image[offset..offset + SECTOR];
        if !bytes.starts_with(b"head") || !crc::agrees(bytes, [].into_iter()) {
            return None;
        }
        Some(Header {
            offset,
            number: number64(bytes, 8),
            log_id: array(bytes, 48),
            log_version: number16(bytes, 64),
            version: number16(bytes, 66),
            log: Extent {
                offset: number64(bytes, 72),
                length: u64::from(number32(bytes, 68)),
            },
        })
    }

    /// The place of the other header, whatever is there.
    pub fn other_offset(&self) -> usize {
        let [first, second] = OFFSETS;
        if self.offset == first {
            second
        } else {
            first
        }
    }

    /// "Log identifier zero: no active sequence."
    pub fn has_log(&self) -> bool {
        self.log_id != [0; 16]
    }

    /// That no field breaks its rule (4). A zero log identifier excuses LogVersion and nothing else.
    pub fn keeps_rules(&self, image_length: u64) -> bool {
        self.version == 1
            && (self.log_version == 0 || !self.has_log())
            && self.log.offset.is_multiple_of(MIB)
            && self.log.length.is_multiple_of(MIB)
            && self.log.offset >= MIB
            && self.log.inside(image_length)
            && self.log.length <= LONGEST_LOG
    }
}
