//! Files that attach, step and close refuse before anything is written.
use crate::closing::place;
use crate::image::{put64, seal, Entry, Image, HEADERS, MIB};
use crate::pending::{data, pattern, r1_descriptor, r1_with, r_entry, zero};
use crate::sample::{M, TIB};
use crate::tables::Disk;

/// A file of 3 MiB that its log grows by a MiB, in which its BAT lies.
pub fn good() -> Image {
    r1_with(&Disk::default()).image
}

/// Changes the only header, and makes its checksum agree.
fn header(image: &mut Image, change: impl FnOnce(&mut [u8])) {
    let header = &mut image.buffer[place(0)];
    change(header);
    seal(header);
}

/// Puts another entry into the log.
fn log(image: &mut Image, entry: Entry) {
    image.log_mut().fill(0);
    image.entry(0, &entry);
}

/// A change to a file with its log and one header.
pub type FileChange = fn(&mut Image);

/// Refusals 1 to 8, each from several causes.
pub const FILES: &[(u64, &str, FileChange)] = &[
    (1, "length 0", |f| f.length = 0),
    (1, "length below 1 MiB", |f| f.length = M - 1),
    (1, "length above the buffer's", |f| f.length = 4 * M + 1),
    (1, "length of all ones", |f| f.length = u64::MAX),
    (1, "an empty buffer", |f| f.buffer.clear()),
    (2, "first byte", |f| f.buffer[0] ^= 1),
    (2, "last byte", |f| f.buffer[7] ^= 32),
    (2, "an empty file", |f| f.buffer.fill(0)),
    (3, "signature", |f| header(f, |h| h[3] = b'D')),
    (3, "checksum", |f| f.buffer[HEADERS[0] + 4] ^= 1),
    (3, "last byte", |f| f.buffer[HEADERS[0] + 4095] ^= 1),
    (3, "equal numbers", |f| {
        f.buffer.copy_within(place(0), HEADERS[1]);
        f.buffer[HEADERS[1] + 48] ^= 1;
        seal(&mut f.buffer[place(1)]);
    }),
    (4, "Version 0", |f| header(f, |h| h[66] = 0)),
    (4, "Version 257", |f| header(f, |h| h[67] = 1)),
    (4, "LogVersion", |f| header(f, |h| h[65] = 1)),
    (4, "log in the first MiB", |f| {
        header(f, |h| put64(h, 72, 0))
    }),
    (4, "log not at whole MiB", |f| {
        header(f, |h| put64(h, 72, M + 1))
    }),
    (4, "log past the end", |f| {
        header(f, |h| put64(h, 72, 3 * M))
    }),
    (4, "log's end wraps", |f| {
        header(f, |h| put64(h, 72, 0u64.wrapping_sub(M)))
    }),
    (4, "log length", |f| header(f, |h| h[68] = 1)),
    (5, "no entry", |f| f.log_mut().fill(0)),
    (5, "checksum", |f| f.log_mut()[100] ^= 1),
    (5, "another log's", |f| header(f, |h| h[48] ^= 1)),
    (5, "Tail elsewhere", |f| log(f, Entry::new(1, 1))),
    (5, "number 0", |f| log(f, Entry::new(0, 0))),
    (6, "one byte", |f| {
        log(f, r_entry(3 * M + 1, r1_descriptor()))
    }),
    (6, "all ones", |f| {
        log(f, r_entry(u64::MAX, r1_descriptor()))
    }),
    (6, "before 7", |f| log(f, r_entry(4 * M, zero(M, 4096)))),
    (7, "first sector", |f| log(f, r_entry(0, zero(0, 4096)))),
    (7, "log's last sector", |f| {
        log(f, r_entry(0, data(2 * M - 4096, pattern(1))))
    }),
    (7, "around all", |f| log(f, r_entry(0, zero(4096, 1 << 63)))),
    (7, "behind one past 2^64", |f| {
        let top = u64::MAX - 4095;
        log(f, r_entry(0, zero(top, top)).with(zero(M, 4096)))
    }),
    (8, "one byte too few", |f| f.buffer.truncate(4 * MIB - 1)),
    (8, "descriptor", |f| log(f, r_entry(0, zero(4 * M, 4096)))),
    (8, "past 2^64", |f| {
        log(f, r_entry(0, zero(2 * M, u64::MAX - 4095)))
    }),
    (8, "LastFileOffset", |f| {
        let mut entry = r_entry(0, r1_descriptor());
        entry.last = 128 * TIB + 1;
        log(f, entry)
    }),
];
