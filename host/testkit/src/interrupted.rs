//! What interrupted calls and power failures leave of a file.
use crate::image::{Image, SECTOR};
use crate::pending::{assert_same, Replay};
use crate::random::Random;

/// Work on a file of which nothing is surely on the disk: the length that it leads to, and what it writes where, in its order.
pub struct Unflushed<'a> {
    pub length: u64,
    pub writes: Vec<(usize, &'a [u8])>,
}

impl<'a> Unflushed<'a> {
    /// A log's work on a file of a length.
    pub fn of(replay: &'a Replay, length: u64) -> Unflushed<'a> {
        let writes = replay.sectors.iter().map(|(at, bytes)| (*at, &bytes[..]));
        Unflushed {
            length: replay.grown(length),
            writes: writes.collect(),
        }
    }

    /// What may be left of a file: any length up to the final one, and anything in any of the places that are written, whether the
    /// work had come to them or not.
    pub fn lost(&self, random: &mut Random, file: &[u8]) -> Vec<u8> {
        let length = file.len() as u64;
        let more = self.length - length;
        let more = match random.below(4) {
            0 => 0,
            1 => more,
            _ => random.below(more + 1),
        };
        // all of the places, half of them, or few
        let torn = random.pick(&[1, 2, 16]);
        self.lost_at(random, file, length + more, torn)
    }

    /// The same at a length, with one place in so many torn: the file's bytes, zeros behind them, and in those places anything.
    pub fn lost_at(&self, random: &mut Random, file: &[u8], length: u64, one_in: u64) -> Vec<u8> {
        let mut left = file.to_vec();
        left.resize(length as usize, 0);
        let end = left.len();
        for &(at, bytes) in self.writes.iter().filter(|(at, _)| *at < end) {
            if random.one_in(one_in) {
                let place = &mut left[at..end.min(at + bytes.len())];
                let written = &bytes[..place.len()];
                tear(random, place, written);
            }
        }
        left
    }
}

/// What a torn write leaves: random bytes, the new ones up to some place or from there on, some pieces of 512 bytes of them, or all.
fn tear(random: &mut Random, place: &mut [u8], bytes: &[u8]) {
    let stop = random.below(bytes.len() as u64) as usize;
    match random.below(8) {
        0 => place[..stop].copy_from_slice(&bytes[..stop]),
        1 => place[stop..].copy_from_slice(&bytes[stop..]),
        2 | 3 => {
            for (old, new) in place.chunks_mut(512).zip(bytes.chunks(512)) {
                if random.one_in(2) {
                    old.copy_from_slice(new);
                }
            }
        }
        4 => place.copy_from_slice(bytes),
        _ => random.fill(place),
    }
}

/// A file between calls: the library's buffer, and beside it the one that the documents say it is.
pub struct Compared {
    pub buffer: Vec<u8>,
    pub expected: Vec<u8>,
    pub length: u64,
    /// The file as it was when it was last flushed.
    pub flushed: Vec<u8>,
}

impl Compared {
    pub fn new(image: &Image) -> Compared {
        let mut compared = Compared {
            buffer: Vec::new(),
            expected: Vec::new(),
            length: 0,
            flushed: Vec::new(),
        };
        compared.reset(image);
        compared
    }

    /// As it came.
    pub fn reset(&mut self, image: &Image) {
        self.buffer.clone_from(&image.buffer);
        self.expected.clone_from(&image.buffer);
        self.length = image.length;
        self.flush();
    }

    /// The file, without the rest of its buffer.
    pub fn file(&self) -> &[u8] {
        &self.expected[..self.length as usize]
    }

    #[track_caller]
    pub fn assert_same(&self, name: &str) {
        assert_same(&self.buffer, &self.expected, name);
    }

    /// Growth that is interrupted at a length. What is past it may hold anything.
    pub fn interrupt_growth(&mut self, random: &mut Random, length: u64) {
        let (from, to) = (self.length as usize, length as usize);
        self.expected[from..to].fill(0);
        random.fill(&mut self.expected[to..]);
        self.buffer[from..].copy_from_slice(&self.expected[from..]);
        self.length = length;
    }

    /// A torn write of a sector.
    pub fn tear(&mut self, random: &mut Random, at: usize, bytes: &[u8]) {
        let sector = &mut self.expected[at..at + SECTOR];
        tear(random, sector, bytes);
        self.buffer[at..at + SECTOR].copy_from_slice(sector);
    }

    /// A write that was whole when its call was interrupted.
    pub fn put(&mut self, at: usize, bytes: &[u8]) {
        for copy in [&mut self.buffer, &mut self.expected] {
            copy[at..at + bytes.len()].copy_from_slice(bytes);
        }
    }

    /// A file in another buffer, which holds at least so many bytes, and anything past the file's end.
    pub fn reopen(&mut self, random: &mut Random, file: &[u8], least: u64) {
        let capacity = least + random.pick(&[0, 1, 511, 4096, 100_000]);
        self.expected.clear();
        self.expected.extend_from_slice(file);
        self.expected.resize(capacity as usize, 0);
        random.fill(&mut self.expected[file.len()..]);
        self.buffer.clone_from(&self.expected);
        self.length = file.len() as u64;
    }

    /// What is there now is on the disk: no power failure takes it back.
    pub fn flush(&mut self) {
        let file = &self.expected[..self.length as usize];
        self.flushed.clear();
        self.flushed.extend_from_slice(file);
    }
}
