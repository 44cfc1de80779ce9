//! Images with a log of 64 MiB that is full of entries, or nearly empty. What they write is in the file.
use crate::image::{Entry, Image, GUID, MIB, SECTOR};
use crate::pending::{data, pattern, zero};

pub const LOG: usize = 64 * MIB;
pub const SECTORS: usize = LOG / SECTOR;

/// A sector behind the log.
const WRITTEN: u64 = (LOG + 2 * MIB) as u64;

/// The most descriptors that an entry of one sector has.
pub const MOST_DESCRIPTORS: usize = (SECTOR - 64) / 32;

/// A log in which nothing is.
pub fn empty() -> Image {
    Image::new(LOG + 4 * MIB, (LOG + 3 * MIB) as u64, LOG, GUID)
}

/// One small entry, and nothing behind it.
pub fn one_small_entry() -> Image {
    let mut image = empty();
    image.entry(0, &Entry::new(1, 0).with(data(WRITTEN, pattern(1))));
    image
}

/// Entries that fill the log, one behind the other, each as long as its share of the ring. They have no more data sectors than their
/// descriptors leave.
pub fn full_of_data(entries: usize) -> Image {
    let each = SECTORS / entries;
    let front = (each * 32 + 64).div_ceil(SECTOR + 32);
    let mut image = empty();
    for i in 0..entries {
        let mut entry = Entry::new(1 + i as u64, 0);
        entry.descriptors = vec![data(WRITTEN, pattern(i as u8)); each - front];
        assert_eq!(entry.sectors(), (front, each - front));
        image.entry(i * each, &entry);
    }
    image
}

/// 16,384 entries of one sector in one chain that begins in the middle of the ring, each with so many zero descriptors.
pub fn chain(descriptors: usize) -> Image {
    let mut image = empty();
    let start = SECTORS / 2;
    for i in 0..SECTORS {
        let mut entry = Entry::new(1 + i as u64, start);
        entry.descriptors = vec![zero(WRITTEN, 4096); descriptors];
        image.entry((start + i) % SECTORS, &entry);
    }
    image
}
