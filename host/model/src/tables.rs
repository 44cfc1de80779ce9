//! The facts that the tables of an image state, its log applied (9 to 15).
use crate::geometry::{bat_entries, sizes_in_range};
use crate::{locator, metadata, regions, Extent, Facts};

/// The facts of an image whose log is here, or refusals 9 to 15: a lower number anywhere before a higher one anywhere.
pub fn read(image: &[u8], log: Extent) -> Result<Facts, u64> {
    let regions = regions::read(image, log)?;
    let start = regions.metadata.offset as usize;
    let region = &image[start..start + regions.metadata.length as usize];
    let items = metadata::read(region)?;
    let mut facts = Facts {
        logical_sector_size: items.logical_sector_size,
        physical_sector_size: items.physical_sector_size,
        block_size: items.block_size,
        disk_size: items.disk_size,
        has_parent: items.has_parent,
        disk_id: items.disk_id,
        bat: regions.bat,
        metadata: regions.metadata,
        locator: Extent::default(),
    };
    if !sizes_in_range(&facts) {
        return Err(14);
    }
    if items.has_parent {
        let place = items.locator;
        let bytes = &region[place.offset as usize..][..place.length as usize];
        locator::read(bytes).ok_or(14u64)?;
        // offsets of facts are from the image's start
        facts.locator = Extent {
            offset: regions.metadata.offset + place.offset,
            length: place.length,
        };
    }
    if regions.bat.length / 8 < bat_entries(&facts) {
        return Err(15);
    }
    Ok(facts)
}
