//! The file to try first.
use crate::image::{Descriptor, Entry, Image, GUID, HEADERS, MIB, SECTOR};
use crate::tables::{Disk, DISK_SIZE, FILE_PARAMETERS};

const M: u64 = MIB as u64;

/// What block 0 begins with, once the log is applied.
pub const TEXT: &[u8] = b"The first bytes of block 0";

/// Where the log puts block 0.
pub const BLOCK: u64 = 4 * M;

/// A disk of 64 MiB in blocks of 1 MiB: a short file holds a block.
pub fn small_blocks() -> Disk {
    let mut disk = Disk::default();
    disk.set(FILE_PARAMETERS, &[0, 0, 16, 0, 0, 0, 0, 0]);
    disk.set(DISK_SIZE, &(64 * M).to_le_bytes());
    disk
}

/// A sector that begins with these bytes and holds zeros behind them.
pub fn sector_with(start: &[u8]) -> Vec<u8> {
    let mut bytes = vec![0; SECTOR];
    bytes[..start.len()].copy_from_slice(start);
    bytes
}

/// The log's only entry puts block 0 of the disk behind the file's end: the BAT entry, zeros for the whole block, and a text in
/// its first sector. Without the log every sector of the disk is zero.
pub fn entry() -> Entry {
    let fully_present = BLOCK | 6;
    let mut entry = Entry::new(1, 0)
        .with(Descriptor::Data {
            offset: 3 * M,
            bytes: sector_with(&fully_present.to_le_bytes()),
        })
        .with(Descriptor::Zero {
            offset: BLOCK,
            length: M,
        })
        .with(Descriptor::Data {
            offset: BLOCK,
            bytes: sector_with(TEXT),
        });
    (entry.flushed, entry.last) = (BLOCK, BLOCK + M);
    entry
}

/// The image before its log is applied, in a buffer with space for what the log adds.
pub fn pending() -> Image {
    let mut image = Image::new(6 * MIB, BLOCK, MIB, GUID);
    // the second header is the current one, as after an odd number of updates
    image
        .header(HEADERS[1], 2, GUID)
        .tables(&small_blocks())
        .entry(0, &entry());
    image
}
