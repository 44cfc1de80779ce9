//! Facts, and the image that they describe, for lookups and parent keys: a test writes the BAT entries and bitmaps that it needs,
//! and none of the tables that facts are usually read from. Beside them the facts that refusal 16 forbids.

use crate::image::put64;
use crate::model;
use crate::vhdx::{self, Extent, Facts, Lookup};

pub const M: u64 = 1 << 20;
pub const TIB: u64 = 1 << 40;

/// 18,446,744,073,709,551,606.
pub const MINUS_TEN: u64 = 0u64.wrapping_sub(10);

pub fn extent(offset: u64, length: u64) -> Extent {
    Extent { offset, length }
}

/// A BAT entry: an offset in MiB and a state.
pub fn entry(mib: u64, state: u64) -> u64 {
    mib << 20 | state
}

/// Sectors of 512 bytes, blocks of 1 MiB, a disk of 5 GiB: ratio 4,096, two chunks. The metadata region is at 1 MiB, the BAT at
/// 2 MiB.
pub fn small_disk(has_parent: bool) -> Facts {
    Facts {
        logical_sector_size: 512,
        physical_sector_size: 4096,
        block_size: M,
        disk_size: 5 << 30,
        has_parent,
        disk_id: *b"0123456789abcdef",
        bat: extent(2 * M, M),
        metadata: extent(M, M),
        locator: extent(M + 65536, 20),
    }
}

/// The image is the first `length` bytes of the buffer.
#[derive(Clone)]
pub struct Sample {
    pub facts: Facts,
    pub buffer: Vec<u8>,
    pub length: u64,
}

impl Sample {
    /// An image that is all zero.
    pub fn new(facts: Facts, length: u64, capacity: u64) -> Sample {
        let buffer = vec![0; capacity as usize];
        Sample {
            facts,
            buffer,
            length,
        }
    }

    /// The small disk in an image of 8 MiB, in a buffer of 9.
    pub fn small(has_parent: bool) -> Sample {
        Sample::new(small_disk(has_parent), 8 * M, 9 * M)
    }

    /// The largest disk, 64 TiB, in blocks of 256 MiB: a BAT of 3 MiB does and one of 2 MiB does not. The metadata region is at
    /// 1 MiB, the BAT at 4 MiB; the image has 8 MiB, the buffer 9. What 16 forbids can be had here for one cause alone.
    pub fn largest(has_parent: bool) -> Sample {
        let facts = Facts {
            block_size: 256 * M,
            disk_size: 64 * TIB,
            bat: extent(4 * M, 3 * M),
            metadata: extent(M, 3 * M),
            locator: extent(M + 131072, 20),
            ..small_disk(has_parent)
        };
        Sample::new(facts, 8 * M, 9 * M)
    }

    /// Writes an entry of the BAT.
    pub fn set_entry(&mut self, number: u64, value: u64) {
        let at = self.facts.bat.offset + 8 * number;
        put64(&mut self.buffer, at as usize, value);
    }

    /// Writes every entry of the BAT.
    pub fn set_all_entries(&mut self, value: u64) {
        for number in 0..self.facts.bat.length / 8 {
            self.set_entry(number, value);
        }
    }

    /// Writes a byte of the bitmap at an offset in MiB.
    pub fn set_bits(&mut self, mib: u64, byte: u64, value: u8) {
        self.buffer[(mib * M + byte) as usize] = value;
    }

    /// Where a sector is: the proved answer, which the model has to share.
    pub fn lookup(&self, sector: u64) -> Lookup {
        let answer = vhdx::lookup(&self.facts, &self.buffer, self.length, sector);
        let model = model::lookup(&self.facts, &self.buffer, self.length, sector);
        assert_eq!(answer, model, "sector {sector} of {:?}", self.facts);
        answer
    }

    /// Where a key's value is: the proved answer, which the model has to share.
    pub fn parent_key(&self, key: &[u8]) -> Extent {
        let answer = vhdx::parent_key(&self.facts, &self.buffer, self.length, key);
        let model = model::parent_key(&self.facts, &self.buffer, self.length, key);
        assert_eq!(answer, model, "key {key:?} of {:?}", self.facts);
        answer
    }
}

/// Facts with a name for what is wrong with them.
pub type Forbidden = Vec<(String, Facts)>;

/// The largest disk with a size out of its range. A sector size is 512 or 4,096, a block size a power of two from 1 to 256 MiB,
/// a disk size whole sectors up to 64 TiB.
pub fn forbidden_sizes(good: Facts) -> Forbidden {
    let mut cases = Vec::new();
    let mut add = |name: &str, facts| cases.push((name.to_string(), facts));
    let sector_sizes = [0, 1, 511, 513, 1024, 2048, 8192, (1 << 32) + 512, u64::MAX];
    for n in sector_sizes {
        let (mut logical, mut physical) = (good, good);
        logical.logical_sector_size = n;
        physical.physical_sector_size = n;
        add(&format!("logical sector size {n}"), logical);
        add(&format!("physical sector size {n}"), physical);
    }
    let block_sizes = [
        [0, 1, M / 2, M - 1, M + 1, 3 * M],
        [255 * M, 257 * M, 512 * M, 1 << 52, 1 << 63, u64::MAX],
    ];
    for n in block_sizes.concat() {
        let mut facts = good;
        facts.block_size = n;
        // the BAT holds a small disk's entries, however small its blocks
        facts.disk_size = 4096;
        add(&format!("block size {n}"), facts);
    }
    let top = 64 * TIB;
    let disk_sizes = [
        [0, 1, 511, 513, top - 1, top - 256],
        [top + 1, top + 512, 2 * top, 1 << 63, MINUS_TEN, u64::MAX],
    ];
    for n in disk_sizes.concat().into_iter().chain([u64::MAX - 511]) {
        let mut facts = good;
        facts.disk_size = n;
        add(&format!("disk size {n}"), facts);
    }
    cases
}

/// The last MiB below 2^64.
const TOP: u64 = u64::MAX - M + 1;

/// The largest disk with a BAT region that is forbidden.
pub fn forbidden_bats(good: Facts) -> Forbidden {
    let cases = [
        ("offset not whole MiB", 4 * M + 1, 3 * M),
        ("offset not whole MiB", 4 * M + 4096, 3 * M),
        ("offset not whole MiB", 5 * M - 1, 3 * M),
        ("length not whole MiB", 4 * M, 3 * M - 1),
        ("length not whole MiB", 4 * M, 3 * M + 1),
        ("length not whole MiB", 4 * M, 4 * M - 8),
        ("outside the image alone", 6 * M, 3 * M),
        ("outside the image alone", 4 * M, 5 * M),
        ("outside the buffer", 8 * M, 3 * M),
        ("outside the buffer", 9 * M, 3 * M),
        ("outside the buffer", 1 << 40, 3 * M),
        ("outside the buffer", 4 * M, 1 << 63),
        ("end wraps", TOP, 3 * M),
        ("end wraps", 0u64.wrapping_sub(3 * M), 3 * M),
        ("end wraps", 4 * M, TOP),
        ("end wraps", 4 * M, 0u64.wrapping_sub(4 * M)),
        ("too short", 4 * M, 2 * M),
        ("too short", 4 * M, 0),
    ];
    let mut out: Forbidden = cases
        .iter()
        .map(|&(name, offset, length)| {
            let bat = extent(offset, length);
            (format!("BAT {name}: {bat:?}"), Facts { bat, ..good })
        })
        .collect();
    // one MiB is enough for a small disk
    let low = Facts {
        bat: extent(0, M),
        disk_size: 512,
        ..good
    };
    out.push(("BAT below 1 MiB".to_string(), low));
    out
}

/// Facts with other regions. The locator stays behind the table of its region, and where copies of it lie at every MiB it stays
/// on one.
fn with_regions(good: Facts, metadata: Extent, bat: Extent) -> Facts {
    Facts {
        metadata,
        bat,
        locator: extent(metadata.offset / M * M + 131072, good.locator.length),
        ..good
    }
}

/// The largest disk with a metadata region that is forbidden.
pub fn forbidden_metadata(good: Facts) -> Forbidden {
    let (front, back) = (extent(M, 3 * M), extent(4 * M, 3 * M));
    let cases = [
        ("offset not whole MiB", extent(M + 1, 2 * M), back),
        ("offset not whole MiB", extent(M + 65536, 2 * M), back),
        ("length not whole MiB", extent(M, 2 * M + 1), back),
        ("length not whole MiB", extent(M, 3 * M - 1), back),
        ("below 1 MiB", extent(0, 4 * M), back),
        ("outside the image alone", extent(6 * M, 3 * M), front),
        ("outside the image alone", extent(8 * M, M), front),
        ("outside the buffer", extent(9 * M, M), front),
        ("outside the buffer", extent(1 << 40, M), front),
        ("end wraps", extent(TOP, M), front),
        ("end wraps", extent(TOP, 2 * M), front),
        ("end wraps", extent(4 * M, TOP), front),
    ];
    let mut out: Forbidden = cases
        .iter()
        .map(|&(name, metadata, bat)| {
            let facts = with_regions(good, metadata, bat);
            (format!("metadata {name}: {metadata:?}"), facts)
        })
        .collect();
    // no locator fits into an empty region
    for offset in [M, 8 * M] {
        let mut facts = with_regions(good, extent(offset, 0), back);
        facts.has_parent = false;
        out.push((format!("empty metadata at {offset}"), facts));
    }
    out
}

/// The largest disk with two regions that share a byte.
pub fn forbidden_overlaps(good: Facts) -> Forbidden {
    let (front, back) = (extent(M, 3 * M), extent(4 * M, 3 * M));
    [
        ("is BAT", front, front),
        ("inside BAT", extent(5 * M, M), back),
        ("around BAT", extent(3 * M, 5 * M), back),
        ("ends in BAT", extent(M, 4 * M), back),
        ("starts in BAT", extent(6 * M, 2 * M), back),
        ("starts in BAT", extent(3 * M, 2 * M), front),
    ]
    .iter()
    .map(|&(name, metadata, bat)| {
        let facts = with_regions(good, metadata, bat);
        (format!("metadata {name}: {metadata:?}"), facts)
    })
    .collect()
}

/// The largest disk with a locator that is forbidden if it has a parent.
pub fn forbidden_locators(good: Facts) -> Forbidden {
    let usual = M + 131072;
    [
        ("before the region, end inside", M - 16, 64),
        ("before the region", 131072, good.locator.length),
        ("before the region", 0, 20),
        ("of an item without bytes", 0, 0),
        ("in the metadata table", M, good.locator.length),
        ("in the metadata table", M + 65535, 20),
        ("in the metadata table", M + 65516, 20),
        ("ends past the region", 4 * M - 19, 20),
        ("ends past the region", 4 * M - 1, M),
        ("behind the region", 4 * M, 20),
        ("behind the region", 4 * M + 131072, good.locator.length),
        ("without bytes", usual, 0),
        ("too short", usual, 19),
        ("too long", usual, M + 1),
        ("too long", usual, 1 << 32 | 20),
        ("too long", usual, u64::MAX),
        ("end wraps", usual, 0u64.wrapping_sub(65536)),
        ("end wraps", u64::MAX, 20),
        ("end wraps", u64::MAX - 19, 20),
        ("end wraps", u64::MAX, M),
    ]
    .iter()
    .map(|&(name, offset, length)| {
        let locator = extent(offset, length);
        let facts = Facts { locator, ..good };
        (format!("locator {name}: {locator:?}"), facts)
    })
    .collect()
}

/// All of them.
pub fn forbidden(good: Facts) -> Forbidden {
    [
        forbidden_sizes(good),
        forbidden_bats(good),
        forbidden_metadata(good),
        forbidden_overlaps(good),
        forbidden_locators(good),
    ]
    .concat()
}
