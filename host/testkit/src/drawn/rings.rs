//! Rings of the log with many valid entries whose numbers and Tails hardly fit together. What an entry writes tells its place, so
//! that another sequence shows in the file.
use crate::image::{Entry, Image, GUID, MIB, SECTOR};
use crate::pending::{data, pattern, zero};
use crate::random::Random;
use crate::sample::M;

/// Of the ring.
pub const SECTORS: usize = MIB / SECTOR;

/// A file with an empty ring, garbage behind it and no tables, that no log here grows much.
pub fn empty() -> Image {
    let mut empty = Image::new(3 * MIB + 512, 3 * M, MIB, GUID);
    Random::new(3).fill(&mut empty.buffer[2 * MIB..]);
    empty
}

/// An entry at a place that writes sectors of its own.
fn entry(random: &mut Random, at: usize, number: u64, tail: usize) -> Entry {
    let own = 2 * M + at as u64 * 4096;
    let mut entry = Entry::new(number, tail);
    match random.below(4) {
        0 => {}
        1 => entry = entry.with(data(own, pattern(at as u8))),
        2 => entry = entry.with(zero(own, 0)).with(data(own, pattern(at as u8))),
        _ => entry = entry.with(zero(own, 4096)),
    }
    // the head's decides
    entry.last = 3 * M + at as u64;
    entry
}

/// Lays entries one behind the other round the ring's end. Numbers mostly rise by one, Tails mostly name one of these entries.
pub fn crowd(random: &mut Random, image: &mut Image) {
    let first = SECTORS - random.below(12) as usize - 1;
    let mut number = random.pick(&[1, 3, u64::MAX - 3, (1 << 32) - 2]);
    let mut at = first;
    let mut starts = Vec::new();
    for _ in 0..1 + random.below(14) {
        starts.push(at % SECTORS);
        let tail = match random.below(8) {
            0 => random.below(SECTORS as u64) as usize,
            1..=3 => starts[0],
            _ => random.pick(&starts),
        };
        let entry = entry(random, at % SECTORS, number, tail);
        image.entry(at % SECTORS, &entry);
        let (front, data) = entry.sectors();
        at += front + data;
        number = match random.below(8) {
            0 => number.max(2) - 1,
            1 => number,
            2 if random.one_in(2) => 1 + random.below(9),
            _ => number.checked_add(1).unwrap_or(1),
        };
        // a gap, where a sequence ends
        at += usize::from(random.one_in(10));
    }
}

/// Entries of one sector that fill the ring from a place on, each with its number; the last names the first as its Tail.
pub fn full(start: usize, number: u64, entries: usize) -> Image {
    let mut image = Image::new(3 * MIB + 512, 3 * M, MIB, GUID);
    for i in 0..entries {
        let at = (start + i) % SECTORS;
        let own = 2 * M + at as u64 * 4096;
        let entry = Entry::new(number + i as u64, start % SECTORS).with(zero(own, 4096));
        image.entry(at, &entry);
    }
    image.buffer[2 * MIB..].fill(5);
    image
}
