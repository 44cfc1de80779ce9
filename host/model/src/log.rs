//! The log's ring, its valid entries, and their descriptors.
use crate::bytes::{array, number32, number64, SECTOR};
use crate::{crc, Extent, Sector};
use std::num::NonZeroU64;

/// The size of an entry's header, and of a descriptor.
const HEADER: usize = 64;
const DESCRIPTOR: usize = 32;

/// The ring of the log's sectors. Its length is a multiple of 1 MiB, so that sectors never run past its end, though entries do.
#[derive(Clone, Copy, Default)]
pub struct Log<'a> {
    bytes: &'a [u8],
    id: [u8; 16],
}

/// A valid entry. Places in the log are numbers of sectors, which fit 32 bits: a long log's entries stay in the cache.
#[derive(Clone, Copy)]
pub struct Entry {
    start: u32,
    sectors: u32,
    tail: u32,
    /// "At least 1."
    pub number: NonZeroU64,
}

impl Entry {
    pub fn start(self) -> usize {
        self.start as usize
    }

    pub fn sectors(self) -> usize {
        self.sectors as usize
    }

    pub fn tail(self) -> usize {
        self.tail as usize
    }
}

/// What a descriptor names: a range of whole sectors, and the first of them.
#[derive(Clone, Copy)]
pub struct Named {
    pub range: Extent,
    pub first: Sector,
}

impl<'a> Log<'a> {
    pub fn new(bytes: &'a [u8], id: [u8; 16]) -> Log<'a> {
        Log { bytes, id }
    }

    /// How many sectors it has.
    pub fn sectors(&self) -> usize {
        self.bytes.len() / SECTOR
    }

    /// The place `n` sectors on from a place, at most one round.
    pub fn advance(&self, place: usize, n: usize) -> usize {
        let moved = place + n;
        if moved < self.sectors() {
            moved
        } else {
            moved - self.sectors()
        }
    }

    fn sector(&self, place: usize) -> &'a [u8] {
        &self.bytes[place * SECTOR..][..SECTOR]
    }

    /// The place and the bytes of descriptor i of the entry that starts at a place. 32 divides 4,096, so that none is split.
    fn descriptor(&self, start: usize, i: usize) -> (u64, &'a [u8]) {
        let in_entry = HEADER + DESCRIPTOR * i;
        let at = self.advance(start, in_entry / SECTOR) * SECTOR + in_entry % SECTOR;
        (at as u64, &self.bytes[at..at + DESCRIPTOR])
    }

    /// The valid entry that starts at a sector. Its checksum comes last: entries that keep the other rules share no sector, since
    /// each of their sectors begins with a signature, so that no byte is summed twice.
    pub fn entry(&self, start: usize) -> Option<Entry> {
        let header = self.sector(start);
        let length = number32(header, 8) as usize;
        let tail = number32(header, 12) as usize;
        let count = number32(header, 24) as usize;
        let front = (HEADER + DESCRIPTOR * count).next_multiple_of(SECTOR);
        // front <= length follows from the sum below; asked here, the descriptors are in the log
        let keeps_rules = header.starts_with(b"loge")
            && front <= length
            && length <= self.bytes.len()
            && tail.is_multiple_of(SECTOR)
            && tail < self.bytes.len()
            && array(header, 32) == self.id;
        let entry = Entry {
            start: start as u32,
            sectors: (length / SECTOR) as u32,
            tail: (tail / SECTOR) as u32,
            number: NonZeroU64::new(number64(header, 16))?,
        };
        let valid = keeps_rules
            && length == front + SECTOR * self.data_descriptors(entry, count)?
            && self.data_sectors_agree(entry, front / SECTOR)
            && self.checksum_agrees(entry);
        valid.then_some(entry)
    }

    /// How many of an entry's descriptors are data descriptors, if each descriptor keeps its rule.
    fn data_descriptors(&self, entry: Entry, count: usize) -> Option<usize> {
        let mut data = 0;
        for i in 0..count {
            let (_, bytes) = self.descriptor(entry.start(), i);
            let whole_sectors = |at| number64(bytes, at).is_multiple_of(SECTOR as u64);
            let kind_agrees = match &bytes[..4] {
                b"desc" => {
                    data += 1;
                    true
                }
                b"zero" => whole_sectors(8),
                _ => false,
            };
            if !kind_agrees || !whole_sectors(16) || number64(bytes, 24) != entry.number.get() {
                return None;
            }
        }
        Some(data)
    }

    /// That each data sector, from the entry's sector `front` on, has its signature and both halves of the number.
    fn data_sectors_agree(&self, entry: Entry, front: usize) -> bool {
        let (high, low) = (entry.number.get() >> 32, entry.number.get() & 0xffff_ffff);
        (front..entry.sectors()).all(|i| {
            let sector = self.sector(self.advance(entry.start(), i));
            sector.starts_with(b"data")
                && u64::from(number32(sector, 4)) == high
                && u64::from(number32(sector, SECTOR - 4)) == low
        })
    }

    /// "The CRC covers EntryLength bytes."
    fn checksum_agrees(&self, entry: Entry) -> bool {
        let rest = (1..entry.sectors()).map(|i| self.sector(self.advance(entry.start(), i)));
        crc::agrees(self.sector(entry.start()), rest)
    }

    /// The head's FlushedFileOffset (6).
    pub fn flushed_file_offset(&self, entry: Entry) -> u64 {
        number64(self.sector(entry.start()), 48)
    }

    /// The head's LastFileOffset, which the image grows to.
    pub fn last_file_offset(&self, entry: Entry) -> u64 {
        number64(self.sector(entry.start()), 56)
    }

    /// What each descriptor of a valid entry names. Data sectors belong to the data descriptors "in order".
    pub fn named(&self, entry: Entry) -> impl Iterator<Item = Named> + '_ {
        let count = number32(self.sector(entry.start()), 24) as usize;
        let front = (HEADER + DESCRIPTOR * count).div_ceil(SECTOR);
        let mut next = self.advance(entry.start(), front);
        (0..count).map(move |i| {
            let (descriptor, bytes) = self.descriptor(entry.start(), i);
            let offset = number64(bytes, 16);
            if bytes.starts_with(b"zero") {
                let length = number64(bytes, 8);
                return Named {
                    range: Extent { offset, length },
                    first: Sector::Zeros { offset },
                };
            }
            let first = Sector::Data {
                offset,
                descriptor,
                sector: (next * SECTOR) as u64,
            };
            next = self.advance(next, 1);
            Named {
                range: first.extent(),
                first,
            }
        })
    }
}
