//! From sizes to blocks, chunks and entries of the BAT. Sizes in range are powers of two, so that shifts do for divisions.
use crate::bytes::{MIB, TIB};
use crate::Facts;

/// A bitmap is 1 MiB and so has 2^23 bits, one for each sector of a chunk.
const BITMAP_BITS: u32 = 23;

/// Where a sector of the disk is looked up.
#[derive(Debug, PartialEq, Eq, Clone, Copy)]
pub struct Place {
    /// The block's entry of the BAT, and that of its chunk's bitmap.
    pub entry: u64,
    pub bitmap_entry: u64,
    /// The sector's offset in its block.
    pub in_block: u64,
    /// The number of its bit in the bitmap.
    pub bit: u64,
}

/// That all four sizes are in range.
pub fn sizes_in_range(facts: &Facts) -> bool {
    let sector = |size| size == 512 || size == 4096;
    sector(facts.logical_sector_size)
        && sector(facts.physical_sector_size)
        && facts.block_size.is_power_of_two()
        && (MIB..=256 * MIB).contains(&facts.block_size)
        && (1..=64 * TIB).contains(&facts.disk_size)
        && facts.disk_size & (facts.logical_sector_size - 1) == 0
}

/// How many sectors a disk with sizes in range has (17).
pub fn sectors(facts: &Facts) -> u64 {
    facts.disk_size >> facts.logical_sector_size.trailing_zeros()
}

/// How many entries the BAT has to hold (15): "chunks x (ratio + 1)", as if the last chunk were full.
pub fn bat_entries(facts: &Facts) -> u64 {
    let ratio = 1 << ratio_bits(facts);
    let blocks = (facts.disk_size + facts.block_size - 1) >> facts.block_size.trailing_zeros();
    let chunks = (blocks + ratio - 1) >> ratio_bits(facts);
    chunks * (ratio + 1)
}

/// Where a sector is looked up that the disk has.
pub fn place(facts: &Facts, sector: u64) -> Place {
    let in_disk = sector << facts.logical_sector_size.trailing_zeros();
    let block = in_disk >> facts.block_size.trailing_zeros();
    let ratio_bits = ratio_bits(facts);
    let chunk = block >> ratio_bits;
    Place {
        entry: block + chunk,
        bitmap_entry: ((chunk + 1) << ratio_bits) + chunk,
        in_block: in_disk & (facts.block_size - 1),
        bit: sector & ((1 << BITMAP_BITS) - 1),
    }
}

/// "Ratio = 2^23 x logical sector size / block size", as a power of two.
fn ratio_bits(facts: &Facts) -> u32 {
    BITMAP_BITS + facts.logical_sector_size.trailing_zeros() - facts.block_size.trailing_zeros()
}
