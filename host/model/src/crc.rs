//! CRC-32C of RFC 3720, one byte at a time by a table: all ones at the start, inverted at the end.
use crate::bytes::number32;

/// Castagnoli's polynomial, its bits reversed.
const POLYNOMIAL: u32 = 0x82f6_3b78;

const TABLE: [u32; 256] = table();

const fn table() -> [u32; 256] {
    let mut table = [0; 256];
    let mut i = 0;
    while i < 256 {
        let mut state = i as u32;
        let mut bit = 0;
        while bit < 8 {
            state = (state >> 1) ^ (POLYNOMIAL * (state & 1));
            bit += 1;
        }
        table[i] = state;
        i += 1;
    }
    table
}

pub fn crc32c(bytes: &[u8]) -> u32 {
    crc32c_of([bytes])
}

/// Of pieces, one behind the other.
pub fn crc32c_of<'a>(pieces: impl IntoIterator<Item = &'a [u8]>) -> u32 {
    let mut state = u32::MAX;
    for piece in pieces {
        for byte in piece {
            state = (state >> 8) ^ TABLE[usize::from(state as u8 ^ byte)];
        }
    }
    !state
}

/// That the checksum at bytes 4 to 7 agrees with all of a structure, whose first piece holds it: it is "taken as zero".
pub fn agrees<'a>(first: &'a [u8], rest: impl Iterator<Item = &'a [u8]>) -> bool {
    let pieces = [&first[..4], &[0; 4], &first[8..]];
    crc32c_of(pieces.into_iter().chain(rest)) == number32(first, 4)
}

/// Makes the checksum of a structure in one piece anew.
pub fn seal(bytes: &mut [u8]) {
    bytes[4..8].fill(0);
    let sum = crc32c(bytes);
    bytes[4..8].copy_from_slice(&sum.to_le_bytes());
}

#[cfg(test)]
mod tests {
    use super::*;

    /// RFC 3720, appendix B.4, whose sums are written as they are sent: the lowest byte first.
    #[test]
    fn published_examples() {
        let ascending: Vec<u8> = (0..32).collect();
        let descending: Vec<u8> = (0..32).rev().collect();
        let mut command = vec![0; 48];
        command[..2].copy_from_slice(&[0x01, 0xc0]);
        command[16] = 0x14;
        command[22] = 0x04;
        command[27] = 0x14;
        command[31] = 0x18;
        command[32] = 0x28;
        command[40] = 0x02;
        let cases: [(&[u8], [u8; 4]); 5] = [
            (&[0; 32], [0xaa, 0x36, 0x91, 0x8a]),
            (&[0xff; 32], [0x43, 0xab, 0xa8, 0x62]),
            (&ascending, [0x4e, 0x79, 0xdd, 0x46]),
            (&descending, [0x5c, 0xdb, 0x3f, 0x11]),
            (&command, [0x56, 0x3a, 0x96, 0xd9]),
        ];
        for (bytes, sum) in cases {
            assert_eq!(crc32c(bytes), u32::from_le_bytes(sum), "{bytes:?}");
            let (front, back) = bytes.split_at(13);
            assert_eq!(crc32c_of([front, &[], back]), crc32c(bytes));
        }
        assert_eq!(crc32c(b"123456789"), 0xe306_9283);
        assert_eq!(crc32c(&[]), 0);
    }
}
