//! The region table: which copy is used, the rule of its entries, and the two regions that are known (9 to 11).
use crate::bytes::{array, number32, number64, MIB};
use crate::identifier::{Identifier, BAT, METADATA};
use crate::{crc, Extent};

const OFFSETS: [usize; 2] = [196608, 262144];
const TABLE: usize = 65536;
const MOST_ENTRIES: u32 = 2047;

/// Where the known regions are.
pub struct Regions {
    pub bat: Extent,
    pub metadata: Extent,
}

/// An entry of the table.
struct Region {
    id: Identifier,
    place: Extent,
    required: u32,
}

/// The known regions of an image whose log is here, or refusals 9 to 11.
pub fn read(image: &[u8], log: Extent) -> Result<Regions, u64> {
    let regions = used_table(image).map(entries).ok_or(9u64)?;
    let broken = |(i, region): (usize, &Region)| {
        !keeps_rule(region, image.len() as u64, log)
            || regions[..i].iter().any(|before| clash(before, region))
    };
    if regions.iter().enumerate().any(broken) {
        return Err(10);
    }
    let place = |id| {
        let region = regions.iter().find(|region| region.id == id);
        region.map(|region| region.place).ok_or(11u64)
    };
    Ok(Regions {
        bat: place(BAT)?,
        metadata: place(METADATA)?,
    })
}

/// "The first valid copy is used", even if its entries break their rule.
fn used_table(image: &[u8]) -> Option<&[u8]> {
    let mut copies = OFFSETS.iter().map(|&at| &image[at..at + TABLE]);
    copies.find(|table| {
        table.starts_with(b"regi")
            && number32(table, 8) <= MOST_ENTRIES
            && crc::agrees(table, [].into_iter())
    })
}

fn entries(table: &[u8]) -> Vec<Region> {
    let entry = |i| {
        let bytes = &table[16 + 32 * i..][..32];
        Region {
            id: array(bytes, 0),
            place: Extent {
                offset: number64(bytes, 16),
                length: u64::from(number32(bytes, 24)),
            },
            required: number32(bytes, 28),
        }
    };
    (0..number32(table, 8) as usize).map(entry).collect()
}

/// What the rule asks of an entry alone. Required is compared with 1 and nothing else.
fn keeps_rule(region: &Region, image_length: u64, log: Extent) -> bool {
    let known = [BAT, METADATA].contains(&region.id);
    region.place.offset.is_multiple_of(MIB)
        && region.place.offset >= MIB
        && region.place.length.is_multiple_of(MIB)
        && region.place.inside(image_length)
        && !region.place.shares_a_byte(log)
        && (known || region.required != 1)
}

/// "Identifier unique", "sharing no byte with another region".
fn clash(a: &Region, b: &Region) -> bool {
    a.id == b.id || a.place.shares_a_byte(b.place)
}
