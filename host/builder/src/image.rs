//! VHDX images built from document 01 alone: headers, and log entries laid round the log's ring.
use crate::tables::Disk;

pub const MIB: usize = 1 << 20;
pub const SECTOR: usize = 4096;

/// Where the two headers are.
pub const HEADERS: [usize; 2] = [65536, 131072];

/// The identifier of every image's log here, unless a test says otherwise.
pub const GUID: [u8; 16] = *b"the log's GUID..";

/// CRC-32C over pieces, one after the other, by a table of this file's own.
pub fn crc32c(pieces: &[&[u8]]) -> u32 {
    let mut table = [0u32; 256];
    for (i, slot) in table.iter_mut().enumerate() {
        let mut state = i as u32;
        for _ in 0..8 {
            state = if state & 1 == 1 {
                (state >> 1) ^ 0x82f6_3b78
            } else {
                state >> 1
            };
        }
        *slot = state;
    }
    let mut state = u32::MAX;
    for piece in pieces {
        for byte in *piece {
            state = (state >> 8) ^ table[((state ^ u32::from(*byte)) & 255) as usize];
        }
    }
    !state
}

/// Writes the checksum of a structure that holds it at bytes 4 to 7.
pub fn seal(bytes: &mut [u8]) {
    let sum = crc32c(&[&bytes[..4], &[0; 4], &bytes[8..]]);
    bytes[4..8].copy_from_slice(&sum.to_le_bytes());
}

pub fn put32(bytes: &mut [u8], at: usize, value: u32) {
    bytes[at..at + 4].copy_from_slice(&value.to_le_bytes());
}

pub fn put64(bytes: &mut [u8], at: usize, value: u64) {
    bytes[at..at + 8].copy_from_slice(&value.to_le_bytes());
}

#[derive(Clone)]
pub enum Descriptor {
    Data { offset: u64, bytes: Vec<u8> },
    Zero { offset: u64, length: u64 },
}

#[derive(Clone)]
pub struct Entry {
    pub number: u64,
    /// In bytes.
    pub tail: u32,
    pub guid: [u8; 16],
    pub flushed: u64,
    pub last: u64,
    pub descriptors: Vec<Descriptor>,
}

impl Entry {
    /// An entry with nothing to write, whose Tail is this sector.
    pub fn new(number: u64, tail_sector: usize) -> Entry {
        Entry {
            number,
            tail: (tail_sector * SECTOR) as u32,
            guid: GUID,
            flushed: 0,
            last: 0,
            descriptors: Vec::new(),
        }
    }

    pub fn with(mut self, descriptor: Descriptor) -> Entry {
        self.descriptors.push(descriptor);
        self
    }

    /// The sectors of the header and the descriptors, and the data sectors behind them.
    pub fn sectors(&self) -> (usize, usize) {
        let front = (64 + 32 * self.descriptors.len()).div_ceil(SECTOR);
        let data = self
            .descriptors
            .iter()
            .filter(|d| matches!(d, Descriptor::Data { .. }))
            .count();
        (front, data)
    }

    /// The entry's bytes, sealed.
    pub fn bytes(&self) -> Vec<u8> {
        let (front, data) = self.sectors();
        let mut out = vec![0; (front + data) * SECTOR];
        let length = out.len() as u32;
        out[..4].copy_from_slice(b"loge");
        put32(&mut out, 8, length);
        put32(&mut out, 12, self.tail);
        put64(&mut out, 16, self.number);
        put32(&mut out, 24, self.descriptors.len() as u32);
        out[32..48].copy_from_slice(&self.guid);
        put64(&mut out, 48, self.flushed);
        put64(&mut out, 56, self.last);
        let mut next = front * SECTOR;
        for (i, descriptor) in self.descriptors.iter().enumerate() {
            let at = 64 + 32 * i;
            put64(&mut out, at + 24, self.number);
            match descriptor {
                Descriptor::Zero { offset, length } => {
                    out[at..at + 4].copy_from_slice(b"zero");
                    put64(&mut out, at + 8, *length);
                    put64(&mut out, at + 16, *offset);
                }
                Descriptor::Data { offset, bytes } => {
                    out[at..at + 4].copy_from_slice(b"desc");
                    out[at + 4..at + 8].copy_from_slice(&bytes[4092..]);
                    out[at + 8..at + 16].copy_from_slice(&bytes[..8]);
                    put64(&mut out, at + 16, *offset);
                    out[next..next + 4].copy_from_slice(b"data");
                    put32(&mut out, next + 4, (self.number >> 32) as u32);
                    out[next + 8..next + 4092].copy_from_slice(&bytes[8..4092]);
                    put32(&mut out, next + 4092, self.number as u32);
                    next += SECTOR;
                }
            }
        }
        seal(&mut out);
        out
    }
}

/// A buffer whose first `length` bytes are an image.
#[derive(Clone)]
pub struct Image {
    pub buffer: Vec<u8>,
    pub length: u64,
    pub log_offset: usize,
    pub log_length: usize,
}

impl Image {
    /// With its log at 1 MiB.
    pub fn new(capacity: usize, length: u64, log_length: usize, guid: [u8; 16]) -> Image {
        Image::with_log_at(MIB, capacity, length, log_length, guid)
    }

    pub fn with_log_at(
        log_offset: usize,
        capacity: usize,
        length: u64,
        log_length: usize,
        guid: [u8; 16],
    ) -> Image {
        let mut image = Image {
            buffer: vec![0; capacity],
            length,
            log_offset,
            log_length,
        };
        image.buffer[..8].copy_from_slice(b"vhdxfile");
        image.header(HEADERS[0], 1, guid);
        image
    }

    /// Writes a header with a sequence number at an offset.
    pub fn header(&mut self, at: usize, number: u64, guid: [u8; 16]) -> &mut Image {
        let header = &mut self.buffer[at..at + SECTOR];
        header.fill(0);
        header[..4].copy_from_slice(b"head");
        put64(header, 8, number);
        header[48..64].copy_from_slice(&guid);
        header[66] = 1;
        put32(header, 68, self.log_length as u32);
        put64(header, 72, self.log_offset as u64);
        seal(header);
        self
    }

    /// An image of 3 MiB in a buffer of 4 MiB, with a log of 1 MiB.
    pub fn small() -> Image {
        Image::new(4 * MIB, 3 * MIB as u64, MIB, GUID)
    }

    pub fn log(&self) -> &[u8] {
        &self.buffer[self.log_offset..self.log_offset + self.log_length]
    }

    pub fn log_mut(&mut self) -> &mut [u8] {
        &mut self.buffer[self.log_offset..self.log_offset + self.log_length]
    }

    /// Lays bytes into the ring from a sector on, past its end at its start again.
    pub fn lay(&mut self, sector: usize, bytes: &[u8]) -> &mut Image {
        let n = self.log_length / SECTOR;
        let log = self.log_mut();
        for (i, piece) in bytes.chunks(SECTOR).enumerate() {
            let at = (sector + i) % n * SECTOR;
            log[at..at + piece.len()].copy_from_slice(piece);
        }
        self
    }

    pub fn entry(&mut self, sector: usize, entry: &Entry) -> &mut Image {
        self.lay(sector, &entry.bytes())
    }

    /// Copies a disk's tables, as far as the image holds them.
    pub fn tables(&mut self, disk: &Disk) -> &mut Image {
        let bytes = disk.bytes();
        let end = bytes.len().min(self.length as usize);
        let first_mib = 196608..196608 + 2 * 65536;
        for part in [first_mib, disk.metadata_at as usize..end] {
            self.buffer[part.clone()].copy_from_slice(&bytes[part]);
        }
        self
    }
}
