//! The plan of the log's work: what the image grows to, which sectors are written, and refusals 1 to 8. Nothing is written before
//! all of them are decided.
use crate::bytes::{MIB, SECTOR, TIB};
use crate::header::Header;
use crate::log::{Entry, Log, Named};
use crate::sequence;
use crate::{Extent, File, Stepped};

/// House limit.
pub const LONGEST_IMAGE: u64 = 128 * TIB;

const FIRST_MIB: Extent = Extent {
    offset: 0,
    length: MIB,
};

/// The log's work. A zero descriptor may name 2^35 sectors: runs of sectors are held, one for each descriptor.
#[derive(Debug, PartialEq, Eq, Clone)]
pub struct Plan {
    /// Of the image once it is grown.
    pub length: u64,
    /// Of sectors to write.
    pub count: u64,
    /// The current header's log.
    pub log: Extent,
    runs: Vec<Run>,
}

/// The sectors of a descriptor: how many the runs before have, how many it has, and the first.
#[derive(Debug, PartialEq, Eq, Clone, Copy)]
struct Run {
    before: u64,
    count: u64,
    first: Sector,
}

/// A sector to write: its offset in the file, and where its bytes are. `descriptor` and `sector` are offsets in the log.
#[derive(Debug, PartialEq, Eq, Clone, Copy)]
pub enum Sector {
    Zeros {
        offset: u64,
    },
    Data {
        offset: u64,
        descriptor: u64,
        sector: u64,
    },
}

impl Sector {
    /// The part of the file that is written.
    pub fn extent(self) -> Extent {
        let (Sector::Zeros { offset } | Sector::Data { offset, .. }) = self;
        let length = SECTOR as u64;
        Extent { offset, length }
    }

    /// What is written there, by the log's bytes. "A data sector is LeadingBytes, the 4,084 bytes, TrailingBytes."
    pub(crate) fn bytes(self, log: &[u8]) -> [u8; SECTOR] {
        let mut bytes = [0; SECTOR];
        if let Sector::Data {
            descriptor, sector, ..
        } = self
        {
            let (descriptor, sector) = (descriptor as usize, sector as usize);
            bytes[..8].copy_from_slice(&log[descriptor + 8..descriptor + 16]);
            bytes[8..4092].copy_from_slice(&log[sector + 8..sector + 4092]);
            bytes[4092..].copy_from_slice(&log[descriptor + 4..descriptor + 8]);
        }
        bytes
    }
}

impl Run {
    /// A run's sector. Those behind the first are zeros, since data descriptors name one sector each.
    fn sector(&self, i: u64) -> Sector {
        match self.first {
            Sector::Zeros { offset } => Sector::Zeros {
                offset: offset + i * SECTOR as u64,
            },
            data => data,
        }
    }
}

/// What is to be done to apply the log of the image that is the first `length` bytes of the buffer, or refusal 1 to 8.
pub fn plan(buffer: &[u8], length: u64) -> Result<Plan, u64> {
    let capacity = buffer.len() as u64;
    plan_of(File::with_length(buffer, length), capacity)
}

/// The same of a file that may grow to a capacity, which no buffer has to have: refusals 1 and 8 read it "in place of the buffer".
pub fn plan_of(file: File, capacity: u64) -> Result<Plan, u64> {
    let length = file.length();
    if length > capacity || length < MIB {
        return Err(1);
    }
    let first_mib = file.part(FIRST_MIB);
    if !first_mib.starts_with(b"vhdxfile") {
        return Err(2);
    }
    let header = Header::current(&first_mib).ok_or(3u64)?;
    if !header.keeps_rules(length) {
        return Err(4);
    }
    let log;
    let active = if header.has_log() {
        log = file.part(header.log);
        Active::new(&log, &header)?
    } else {
        Active::default()
    };
    let final_length = active.final_length(length, header.log)?;
    if final_length > u128::from(capacity.min(LONGEST_IMAGE)) {
        return Err(8);
    }
    Ok(active.plan(final_length as u64, header.log))
}

/// The log that the current header states, where there is one. Whether it keeps the header's rules is not judged.
pub fn current_log(file: File) -> Option<Extent> {
    if file.length() < MIB {
        return None;
    }
    Header::current(&file.part(FIRST_MIB)).map(|header| header.log)
}

/// The active sequence: its log and its entries. "Log identifier zero: no active sequence."
#[derive(Default)]
struct Active<'a> {
    log: Log<'a>,
    entries: Vec<Entry>,
}

impl<'a> Active<'a> {
    /// By the log's bytes, unless no sequence exists (5).
    fn new(log: &'a [u8], header: &Header) -> Result<Active<'a>, u64> {
        let log = Log::new(log, header.log_id);
        let entries = sequence::active(&log).ok_or(5u64)?;
        Ok(Active { log, entries })
    }

    /// What descriptors "that name at least one sector" name, from the first entry on.
    fn named(&self) -> impl Iterator<Item = Named> + '_ {
        let all = self.entries.iter().flat_map(|&entry| self.log.named(entry));
        all.filter(|named| named.range.length != 0)
    }

    /// What the image grows to, or refusals 6 and 7. It may pass 2^64.
    fn final_length(&self, length: u64, log: Extent) -> Result<u128, u64> {
        let Some(&head) = self.entries.last() else {
            return Ok(length.into());
        };
        if length < self.log.flushed_file_offset(head) {
            return Err(6);
        }
        // ranges are whole sectors, so that a range shares a byte where one of its sectors does
        let forbidden = |range: Extent| range.shares_a_byte(FIRST_MIB) || range.shares_a_byte(log);
        if self.named().any(|named| forbidden(named.range)) {
            return Err(7);
        }
        let end = |range: Extent| u128::from(range.offset) + u128::from(range.length);
        let farthest = self.named().map(|named| end(named.range)).max();
        let least = length.max(self.log.last_file_offset(head));
        Ok(farthest.unwrap_or(0).max(least.into()))
    }

    /// The plan, once the final length is known to be at most 128 TiB: so is each range, so that the count does not wrap.
    fn plan(&self, length: u64, log: Extent) -> Plan {
        let mut count = 0;
        let run = |named: Named| {
            let run = Run {
                before: count,
                count: named.range.length / SECTOR as u64,
                first: named.first,
            };
            count += run.count;
            run
        };
        let runs = self.named().map(run).collect();
        Plan {
            length,
            count,
            log,
            runs,
        }
    }
}

impl Plan {
    /// The sectors in the order of the steps.
    pub fn sectors(&self) -> impl Iterator<Item = Sector> + '_ {
        self.runs
            .iter()
            .flat_map(|run| (0..run.count).map(|i| run.sector(i)))
    }

    /// The sector of step k, from 1 to the count.
    pub fn sector(&self, k: u64) -> Option<Sector> {
        let number = k.checked_sub(1).filter(|&number| number < self.count)?;
        let run = self.runs.partition_point(|run| run.before <= number) - 1;
        Some(self.runs[run].sector(number - self.runs[run].before))
    }

    /// All steps, on an image of a length.
    pub(crate) fn apply(&self, buffer: &mut [u8], length: u64) {
        self.grow(buffer, length);
        for sector in self.sectors() {
            self.write(buffer, sector);
        }
    }

    /// Step k alone, or refusals 21 and 22: step 0 grows the image, step k from 1 on writes sector k.
    pub(crate) fn step(&self, buffer: &mut [u8], length: u64, k: u64) -> Stepped {
        if k == 0 {
            self.grow(buffer, length);
            return Stepped {
                refusal: 0,
                length: self.length,
            };
        }
        let refusal = match self.sector(k) {
            None => 21,
            // the file may be shorter than step 0 would leave it
            Some(sector) if !sector.extent().inside(length) => 22,
            Some(sector) => {
                self.write(buffer, sector);
                0
            }
        };
        Stepped { refusal, length }
    }

    /// Step 0: "grows the image with zeros".
    fn grow(&self, buffer: &mut [u8], length: u64) {
        buffer[length as usize..self.length as usize].fill(0);
    }

    /// A step from 1 on.
    fn write(&self, buffer: &mut [u8], sector: Sector) {
        let (at, log) = (sector.extent().offset as usize, self.log.offset as usize);
        let bytes = sector.bytes(&buffer[log..log + self.log.length as usize]);
        buffer[at..at + SECTOR].copy_from_slice(&bytes);
    }
}
