//! Lookup and parent key: what refusal 16 asks of facts, and where a sector is (16 to 20).
use crate::bytes::{number64, MIB};
use crate::geometry::{self, bat_entries, sizes_in_range};
use crate::metadata::{FIRST_ITEM, LONGEST_ITEM};
use crate::{locator, Extent, Facts, Lookup};

/// Where a sector is, in constant time. All that 16 asks of the facts is asked again at every call, as the proved function does.
/// Never inlined, so that a benchmark measures a call.
#[inline(never)]
pub fn lookup(facts: &Facts, buffer: &[u8], length: u64, sector: u64) -> Lookup {
    let Some(image) = described(facts, buffer, length) else {
        return Lookup::Refused(16);
    };
    if sector >= geometry::sectors(facts) {
        return Lookup::Refused(17);
    }
    let place = geometry::place(facts, sector);
    let entry = bat_entry(image, facts, place.entry);
    let state = entry & 7;
    match state {
        0 if facts.has_parent => return Lookup::Parent,
        0..=3 => return Lookup::Zero,
        4 | 5 => return Lookup::Refused(18),
        7 if !facts.has_parent => return Lookup::Refused(18),
        _ => {}
    }
    let block = named(entry, facts.block_size);
    if !behind_first_mib(block, length) {
        return Lookup::Refused(19);
    }
    if state == 7 {
        let bitmap_entry = bat_entry(image, facts, place.bitmap_entry);
        let bitmap = named(bitmap_entry, MIB);
        if bitmap_entry & 7 != 6 || !behind_first_mib(bitmap, length) {
            return Lookup::Refused(20);
        }
        let byte = image[(bitmap.offset + place.bit / 8) as usize];
        if byte >> (place.bit % 8) & 1 == 0 {
            return Lookup::Parent;
        }
    }
    Lookup::File(block.offset + place.in_block)
}

/// Where the value under a key of the parent locator lies in the image, 0 and 0 where there is none.
pub fn parent_key(facts: &Facts, buffer: &[u8], length: u64, key: &[u8]) -> Extent {
    described(facts, buffer, length)
        .filter(|_| facts.has_parent)
        .and_then(|image| {
            let start = facts.locator.offset as usize;
            locator::find(&image[start..start + facts.locator.length as usize], key)
        })
        .map(|value| Extent {
            offset: facts.locator.offset + value.offset,
            length: value.length,
        })
        .unwrap_or_default()
}

/// The image, unless refusal 16 applies.
#[inline]
fn described<'a>(facts: &Facts, buffer: &'a [u8], length: u64) -> Option<&'a [u8]> {
    let image = buffer.get(..usize::try_from(length).ok()?)?;
    let agree = sizes_in_range(facts)
        && region(facts.bat, length)
        && region(facts.metadata, length)
        && facts.metadata.length != 0
        && !facts.bat.shares_a_byte(facts.metadata)
        && facts.bat.length / 8 >= bat_entries(facts)
        && (!facts.has_parent || locator_place(facts));
    agree.then_some(image)
}

/// What 16 asks of the place of the BAT and of the metadata region.
fn region(region: Extent, length: u64) -> bool {
    region.offset.is_multiple_of(MIB)
        && region.length.is_multiple_of(MIB)
        && behind_first_mib(region, length)
}

/// That a part lies in the image and does not start in its first MiB.
fn behind_first_mib(part: Extent, length: u64) -> bool {
    part.offset >= MIB && part.inside(length)
}

/// That the locator lies where an item of the metadata region may, and has a header.
fn locator_place(facts: &Facts) -> bool {
    let Some(offset) = facts.locator.offset.checked_sub(facts.metadata.offset) else {
        return false;
    };
    let length = facts.locator.length;
    let item = Extent { offset, length };
    offset >= FIRST_ITEM
        && (locator::HEADER as u64..=LONGEST_ITEM).contains(&length)
        && item.inside(facts.metadata.length)
}

fn bat_entry(image: &[u8], facts: &Facts, number: u64) -> u64 {
    number64(image, (facts.bat.offset + 8 * number) as usize)
}

/// What an entry names: "its value divided by 2^20, rounded down, is a place in MiB".
fn named(entry: u64, length: u64) -> Extent {
    Extent {
        offset: entry & !(MIB - 1),
        length,
    }
}
