//! Images with a pending log, and what replaying it does to their buffer: by the descriptors that a test laid into the log, not
//! by the log's bytes.
use crate::image::{Descriptor, Entry, Image, GUID, MIB, SECTOR};
use crate::random::Random;
use crate::sample::{entry, extent, M};
use crate::tables::{Disk, LOGICAL};
use crate::vhdx::{self, Attachment, Facts, Stepped};
use std::ops::Range;
use vhdx_builder::sample::{self, sector_with};

pub fn zero(offset: u64, length: u64) -> Descriptor {
    Descriptor::Zero { offset, length }
}

pub fn data(offset: u64, bytes: Vec<u8>) -> Descriptor {
    Descriptor::Data { offset, bytes }
}

/// A sector of bytes that differ from place to place and from seed to seed.
pub fn pattern(seed: u8) -> Vec<u8> {
    (0..SECTOR)
        .map(|i| (i as u8).wrapping_mul(31).wrapping_add((i >> 8) as u8) ^ seed)
        .collect()
}

/// That two buffers hold the same bytes. Says where they do not, which is shorter than both.
#[track_caller]
pub fn assert_same(got: &[u8], expected: &[u8], name: &str) {
    assert_eq!(got.len(), expected.len(), "{name}");
    if got != expected {
        let at = (0..got.len())
            .find(|&i| got[i] != expected[i])
            .expect("a byte");
        panic!(
            "{name}: byte {at} is {:#x} and not {:#x}",
            got[at], expected[at]
        );
    }
}

/// The work of a log that can be applied.
#[derive(Clone)]
pub struct Replay {
    /// Offset and bytes of each sector, in the order of the steps.
    pub sectors: Vec<(usize, Vec<u8>)>,
    /// The length that the image has at least when the log is applied.
    pub end: u64,
}

impl Replay {
    /// Of the entries of a sequence.
    pub fn of(entries: &[Entry]) -> Replay {
        let mut end = entries.last().map_or(0, |head| head.last);
        let mut sectors = Vec::new();
        for descriptor in entries.iter().flat_map(|e| &e.descriptors) {
            match descriptor {
                Descriptor::Data { offset, bytes } => {
                    sectors.push((*offset as usize, bytes.clone()));
                }
                Descriptor::Zero { offset, length } => {
                    let first = *offset as usize;
                    for at in (first..first + *length as usize).step_by(SECTOR) {
                        sectors.push((at, vec![0; SECTOR]));
                    }
                }
            }
        }
        for (at, _) in &sectors {
            end = end.max((at + SECTOR) as u64);
        }
        Replay { sectors, end }
    }

    pub fn count(&self) -> u64 {
        self.sectors.len() as u64
    }

    /// The length after step 0, of an image with a length.
    pub fn grown(&self, length: u64) -> u64 {
        length.max(self.end)
    }

    /// What step k answers: 21 and 22 are the refusals that are left.
    pub fn answer(&self, length: u64, k: u64) -> Stepped {
        let refusal = match k {
            0 => 0,
            _ if k > self.count() => 21,
            _ if (self.offset(k) + SECTOR) as u64 > length => 22,
            _ => 0,
        };
        let length = if k == 0 { self.grown(length) } else { length };
        Stepped { refusal, length }
    }

    /// Where step k writes, k at least 1.
    pub fn offset(&self, k: u64) -> usize {
        self.sectors[k as usize - 1].0
    }

    /// Does step k, and says what it answers.
    pub fn step(&self, buffer: &mut [u8], length: u64, k: u64) -> Stepped {
        let answer = self.answer(length, k);
        if k == 0 {
            buffer[length as usize..answer.length as usize].fill(0);
        } else if answer.refusal == 0 {
            let (at, bytes) = &self.sectors[k as usize - 1];
            buffer[*at..at + SECTOR].copy_from_slice(bytes);
        }
        answer
    }

    /// Does every step, and returns the length after them.
    pub fn all(&self, buffer: &mut [u8], length: u64) -> u64 {
        let length = self.step(buffer, length, 0).length;
        for k in 1..=self.count() {
            assert_eq!(self.step(buffer, length, k).refusal, 0);
        }
        length
    }
}

/// An image with a pending log. Past its end the buffer holds garbage: growth that is not cleared shows, and so does a write past
/// the final length.
#[derive(Clone)]
pub struct Pending {
    pub image: Image,
    pub replay: Replay,
}

impl Pending {
    /// Lays the entries of a sequence one behind the other, from a sector of the log's ring on.
    pub fn new(mut image: Image, mut sector: usize, entries: &[Entry]) -> Pending {
        for entry in entries {
            image.entry(sector, entry);
            let (front, data) = entry.sectors();
            sector += front + data;
        }
        Pending::with_replay(image, Replay::of(entries))
    }

    /// Of an image whose log is laid already, or is none.
    pub fn with_replay(mut image: Image, replay: Replay) -> Pending {
        let end = image.length as usize;
        Random::new(1).fill(&mut image.buffer[end..]);
        Pending { image, replay }
    }

    /// The buffer and the length that an applied log leaves.
    pub fn applied(&self) -> (Vec<u8>, u64) {
        let mut buffer = self.image.buffer.clone();
        let length = self.replay.all(&mut buffer, self.image.length);
        (buffer, length)
    }

    /// What attach answers where the tables are refused by a number, or give facts.
    pub fn answer(&self, tables: Result<Facts, u64>) -> Attachment {
        Attachment {
            refusal: tables.err().unwrap_or(0),
            length: self.replay.grown(self.image.length),
            count: self.replay.count(),
            facts: tables.unwrap_or_default(),
        }
    }

    /// Attaches a copy and compares the answer and every byte of the buffer, which it returns.
    #[track_caller]
    pub fn attach(&self, tables: Result<Facts, u64>, name: &str) -> Vec<u8> {
        let mut buffer = self.image.buffer.clone();
        let answer = vhdx::attach(&mut buffer, self.image.length);
        assert_eq!(answer, self.answer(tables), "{name}");
        assert_same(&buffer, &self.applied().0, name);
        buffer
    }

    /// That a buffer has the original's first MiB and log, and that it differs elsewhere only in sectors that the log names and
    /// past the old end.
    #[track_caller]
    pub fn assert_only_named(&self, buffer: &[u8]) {
        self.assert_only_named_and(buffer, 0..0);
    }

    /// The same, but for a part of the first MiB that may hold anything.
    #[track_caller]
    pub fn assert_only_named_and(&self, buffer: &[u8], part: Range<usize>) {
        let original = &self.image.buffer;
        let log = self.image.log_offset..self.image.log_offset + self.image.log_length;
        for kept in [0..part.start, part.end..MIB] {
            assert_same(&buffer[kept.clone()], &original[kept], "the first MiB");
        }
        assert_same(&buffer[log.clone()], &original[log], "the log");
        let end = self.image.length as usize;
        for at in (MIB..end).step_by(SECTOR) {
            let sector = at..end.min(at + SECTOR);
            if buffer[sector.clone()] != original[sector] {
                let named = self.replay.sectors.iter().any(|(offset, _)| *offset == at);
                assert!(named, "the log does not name the sector at {at}");
            }
        }
    }
}

/// Document 01's R: a log of 1 MiB at 1 MiB, an image of 3 MiB, one entry with LastFileOffset 4 MiB.
pub fn r_entry(flushed: u64, descriptor: Descriptor) -> Entry {
    let mut entry = Entry::new(1, 0).with(descriptor);
    (entry.flushed, entry.last) = (flushed, 4 * M);
    entry
}

/// R1's descriptor.
pub fn r1_descriptor() -> Descriptor {
    zero(3_145_728, 8_192)
}

/// R1's file, without tables: refusal 9 follows the log.
pub fn r1() -> Pending {
    let image = Image::new(4 * MIB, 3 * M, MIB, GUID);
    Pending::new(image, 0, &[r_entry(3 * M, r1_descriptor())])
}

/// R1's file with the tables of a disk, whose BAT lies in what the log grows the file by.
pub fn r1_with(disk: &Disk) -> Pending {
    let mut image = Image::new(4 * MIB, 3 * M, MIB, GUID);
    image.tables(disk);
    Pending::new(image, 0, &[r_entry(3 * M, r1_descriptor())])
}

/// What the tables of the usual disk say.
pub fn usual_facts() -> Facts {
    Facts {
        logical_sector_size: 512,
        physical_sector_size: 4096,
        block_size: 32 << 20,
        disk_size: 1 << 30,
        has_parent: false,
        disk_id: *b"0123456789abcdef",
        bat: extent(3 * M, M),
        metadata: extent(2 * M, M),
        locator: extent(0, 0),
    }
}

/// A disk of 64 MiB in blocks of 1 MiB, and what its tables say.
pub fn small_blocks() -> (Disk, Facts) {
    let facts = Facts {
        block_size: M,
        disk_size: 64 * M,
        ..usual_facts()
    };
    (sample::small_blocks(), facts)
}

/// The bytes of a file's sector.
pub fn sector_of(file: &[u8], at: u64) -> Vec<u8> {
    file[at as usize..at as usize + SECTOR].to_vec()
}

/// A sector that begins with a BAT entry and holds zeros.
pub fn bat_sector(value: u64) -> Vec<u8> {
    sector_with(&value.to_le_bytes())
}

/// Three entries round the ring's end, on a file whose length is no whole sector. The log damages the tables and cures them,
/// names sectors more than once, one of them across the old end, and puts block 0 in the file.
pub fn rich(disk: &Disk) -> Pending {
    let file = disk.bytes();
    let length = 3 * M + 100_001;
    let old_end = length / 4096 * 4096;
    let (table, items) = (2 * M, 2 * M + 65536);
    let mut entries = [
        Entry::new((5 << 32) - 1, 253)
            .with(data(table, pattern(1)))
            .with(zero(items, 4096))
            .with(data(3 * M, bat_sector(entry(2, 6))))
            .with(data(old_end, pattern(2))),
        Entry::new(5 << 32, 253)
            .with(zero(3 * M + 4096, 0))
            .with(data(table, sector_of(&file, table)))
            .with(data(items, sector_of(&file, items)))
            .with(zero(old_end - 8192, 5 * 4096))
            .with(data(old_end, pattern(3))),
        Entry::new((5 << 32) + 1, 253)
            .with(zero(4096, 0))
            .with(data(4 * M, pattern(4)))
            .with(data(3 * M, bat_sector(entry(4, 6))))
            .with(zero(4 * M + 8192, 3 * 4096)),
    ];
    entries[0].last = 9 * M;
    (entries[2].flushed, entries[2].last) = (3 * M, 5 * M + 7);
    let mut image = Image::new(5 * MIB + 10_000, length, MIB, GUID);
    image.tables(disk);
    Pending::new(image, 253, &entries)
}

/// The file to try first, with what its log does.
pub fn sample_file() -> Pending {
    Pending::with_replay(sample::pending(), Replay::of(&[sample::entry()]))
}

/// Without growth, every sector named twice, the second time by other bytes.
pub fn no_growth() -> Pending {
    let places = [2 * M + 65536, 3 * M, 3 * M + 4096];
    let file = Disk::default().bytes();
    let mut entries = [Entry::new(1, 7), Entry::new(2, 7)];
    for (i, at) in places.into_iter().enumerate() {
        let start = at as usize;
        entries[0].descriptors.push(data(at, pattern(i as u8)));
        let last = file[start..start + SECTOR].to_vec();
        entries[1].descriptors.push(data(at, last));
    }
    let mut image = Image::new(4 * MIB, 4 * M, MIB, GUID);
    image.tables(&Disk::default());
    Pending::new(image, 7, &entries)
}

/// Growth alone, of one byte.
pub fn growth_alone() -> Pending {
    let mut entry = Entry::new(1, 0);
    entry.last = 4 * M;
    let mut image = Image::new(4 * MIB + 1, 4 * M - 1, MIB, GUID);
    image.tables(&Disk::default());
    Pending::new(image, 0, &[entry])
}

/// A file whose log identifier is zero.
pub fn without_a_log() -> Pending {
    let mut image = Image::new(4 * MIB + 100, 4 * M, MIB, [0; 16]);
    image.tables(&Disk::default());
    Pending::with_replay(image, Replay::of(&[]))
}

/// The log leaves a sector size that is refused.
pub fn ends_in_14() -> Pending {
    let mut disk = Disk::default();
    disk.set(LOGICAL, &[0; 4]);
    let bytes = disk.bytes();
    let at = 2 * MIB + 65536;
    let mut entry = Entry::new(1, 0)
        .with(zero(at as u64, 4096))
        .with(data(at as u64, bytes[at..at + SECTOR].to_vec()))
        .with(zero(3 * M, 4 * 4096));
    entry.last = 4 * M;
    let mut image = Image::new(4 * MIB, 3 * M + 5000, MIB, GUID);
    image.tables(&Disk::default());
    Pending::new(image, 0, &[entry])
}
