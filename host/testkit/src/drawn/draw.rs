//! Logs drawn at random for a file: most can be applied, and refusals 5 to 8 are not rare.
use super::files::Base;
use crate::image::{Descriptor, Entry, Image, SECTOR};
use crate::pending::{data, pattern, zero};
use crate::random::Random;
use crate::sample::{entry, M, MINUS_TEN, TIB};

/// Draws for a file in a buffer with a capacity.
pub struct Draw<'a> {
    pub base: &'a Base,
    pub capacity: u64,
}

impl Draw<'_> {
    /// Lays a sequence into an image's log, and now and then entries that belong to none. Returns where entries start.
    pub fn log(&self, random: &mut Random, image: &mut Image) -> Vec<usize> {
        let sectors = image.log_length / SECTOR;
        let start = match random.below(3) {
            0 => 0,
            1 => sectors - 1 - random.below(6) as usize,
            _ => random.below(sectors as u64) as usize,
        };
        let count = 1 + random.below(4);
        let first = first_number(random, count);
        let mut starts = Vec::new();
        let mut next = start;
        for i in 0..count {
            let mut entry = self.entry(random, first + i, start);
            if i + 1 < count && random.one_in(2) {
                entry.tail = random.below(sectors as u64) as u32 * SECTOR as u32;
            }
            image.entry(next, &entry);
            starts.push(next);
            let (front, data) = entry.sectors();
            next = (next + front + data) % sectors;
        }
        if random.one_in(4) {
            let stray = self.stray(random, first + (count - 1), next);
            image.entry(next, &stray);
            starts.push(next);
        }
        starts
    }

    /// An entry that is no part of the sequence before it, though its number may be the greatest.
    fn stray(&self, random: &mut Random, head: u64, at: usize) -> Entry {
        let number = random.pick(&[head, head.wrapping_add(1).max(1), head / 2 + 1, u64::MAX]);
        let mut entry = self.entry(random, number, at);
        match random.below(4) {
            0 => entry.guid[0] ^= 1,
            1 => entry.tail ^= SECTOR as u32,
            2 => entry.tail += 512,
            // a sequence of its own
            _ => {}
        }
        entry
    }

    fn entry(&self, random: &mut Random, number: u64, tail_sector: usize) -> Entry {
        let mut entry = Entry::new(number, tail_sector);
        let length = self.base.image.length;
        entry.flushed = match random.below(64) {
            0 => length + 1,
            1 => random.pick(&[self.capacity, MINUS_TEN, u64::MAX]),
            _ => random.pick(&[0, M, length]),
        };
        entry.last = match random.below(64) {
            0 => random.pick(&[self.capacity + 1, 128 * TIB, MINUS_TEN]),
            1..=8 => self.capacity,
            _ => random.below(self.capacity + 1),
        };
        let descriptors = match random.below(32) {
            0 => 125 + random.below(4),
            _ => random.below(7),
        };
        for _ in 0..descriptors {
            entry.descriptors.push(self.descriptor(random));
        }
        entry
    }

    fn descriptor(&self, random: &mut Random) -> Descriptor {
        let base = self.base;
        match random.below(400) {
            // the first MiB, the log, or near them
            0 => zero(random.below(257) * 4096, 4096),
            1 => zero(
                near(random, base.image.log_offset, base.image.log_length),
                4096,
            ),
            2 => zero(random.below(512) * 4096, random.below(64) * M),
            3 => zero(random.number() << 12, random.number() << 12),
            4..=50 => zero(random.number() << 12, 0),
            51..=100 => data(base.facts.bat.offset, bat_sector(random)),
            101..=150 => self.table_sector(random),
            n => self.payload(random, n % 2 == 0),
        }
    }

    /// A sector of the metadata region that says what it said before, or does not.
    fn table_sector(&self, random: &mut Random) -> Descriptor {
        let metadata = self.base.facts.metadata.offset;
        let at = metadata + random.pick(&[0, 65536, 131072]);
        if random.one_in(8) {
            return data(at, pattern(random.number() as u8));
        }
        let start = at as usize;
        data(at, self.base.image.buffer[start..start + SECTOR].to_vec())
    }

    /// Sectors that hold no table, up to the capacity.
    fn payload(&self, random: &mut Random, zeros: bool) -> Descriptor {
        let sectors = self.capacity / 4096;
        let length = (self.base.image.length / 4096).min(sectors);
        let near_end = length + random.below(sectors - length + 1);
        let at = near_end.saturating_sub(random.below(8)).min(sectors - 1);
        if zeros {
            let most = if random.one_in(64) { 8 } else { sectors - at };
            zero(at * 4096, (1 + random.below(most.min(4))) * 4096)
        } else {
            data(at * 4096, pattern(random.number() as u8))
        }
    }
}

/// The first number of a sequence: numbers need both halves, and may reach the greatest.
fn first_number(random: &mut Random, count: u64) -> u64 {
    let greatest = u64::MAX - count + 1;
    random.pick(&[1, 2, 77, (1 << 32) - 1, 5 << 32, greatest - 1, greatest])
}

/// A multiple of 4,096 around either end of a part of the file.
fn near(random: &mut Random, offset: usize, length: usize) -> u64 {
    let end = random.pick(&[offset, offset + length]) as u64;
    end + random.below(5) * 4096 - 2 * 4096
}

/// BAT entries in every state, named blocks inside the file or not.
fn bat_sector(random: &mut Random) -> Vec<u8> {
    let mut bytes = Vec::with_capacity(SECTOR);
    for _ in 0..SECTOR / 8 {
        let value = entry(random.below(8), random.below(8));
        bytes.extend(value.to_le_bytes());
    }
    bytes
}

/// A capacity that has space for a file, often no more than that.
pub fn capacity(random: &mut Random, base: &Base) -> u64 {
    let whole = base.image.buffer.len() as u64;
    let length = base.image.length;
    match random.below(8) {
        0 => length,
        1 => length + random.below(whole - length + 1),
        2 => whole / M * M,
        _ => whole,
    }
}
