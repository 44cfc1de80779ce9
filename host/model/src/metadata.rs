//! The metadata table: the rule of its entries, and the items that are needed (12 and 13).
use crate::bytes::{array, number16, number32, number64, MIB};
use crate::identifier::{
    Identifier, DISK_ID, DISK_SIZE, FILE_PARAMETERS, LOGICAL_SECTOR_SIZE, PARENT_LOCATOR,
    PHYSICAL_SECTOR_SIZE,
};
use crate::Extent;

const MOST_ENTRIES: u16 = 2047;

/// Items lie behind the table.
pub const FIRST_ITEM: u64 = 65536;
pub const LONGEST_ITEM: u64 = MIB;

const IS_USER: u32 = 1;
const IS_REQUIRED: u32 = 4;
const HAS_PARENT: u32 = 2;

const KNOWN: [Identifier; 6] = [
    FILE_PARAMETERS,
    DISK_SIZE,
    DISK_ID,
    LOGICAL_SECTOR_SIZE,
    PHYSICAL_SECTOR_SIZE,
    PARENT_LOCATOR,
];

/// What the needed items hold, in no way judged.
pub struct Items {
    pub block_size: u64,
    pub has_parent: bool,
    pub disk_size: u64,
    pub disk_id: [u8; 16],
    pub logical_sector_size: u64,
    pub physical_sector_size: u64,
    /// Where the parent locator lies in the region. 0 and 0 without a parent.
    pub locator: Extent,
}

/// An entry of the table.
struct Entry {
    id: Identifier,
    place: Extent,
    flags: u32,
}

impl Entry {
    fn is_user(&self) -> bool {
        self.flags & IS_USER != 0
    }

    /// "User items are never known."
    fn known(&self) -> bool {
        !self.is_user() && KNOWN.contains(&self.id)
    }

    /// What the rule asks of an entry alone.
    fn keeps_rule(&self, region_length: u64) -> bool {
        let place = if self.place.length == 0 {
            self.place.offset == 0
        } else {
            self.place.length <= LONGEST_ITEM
                && self.place.offset >= FIRST_ITEM
                && self.place.inside(region_length)
        };
        place && (self.known() || self.flags & IS_REQUIRED == 0)
    }

    /// "Identifier with IsUser unique."
    fn clashes(&self, other: &Entry) -> bool {
        self.id == other.id && self.is_user() == other.is_user()
    }
}

/// The items of a metadata region, or refusals 12 and 13.
pub fn read(region: &[u8]) -> Result<Items, u64> {
    let entries = entries(region).ok_or(12u64)?;
    let broken = |(i, entry): (usize, &Entry)| {
        !entry.keeps_rule(region.len() as u64)
            || entries[..i].iter().any(|before| entry.clashes(before))
    };
    if entries.iter().enumerate().any(broken) {
        return Err(12);
    }
    items(region, &entries).ok_or(13)
}

/// The table's entries, unless the region is empty or the table breaks its rule. A region is whole MiB, so that it holds a table.
fn entries(region: &[u8]) -> Option<Vec<Entry>> {
    if !region.starts_with(b"metadata") || number16(region, 10) > MOST_ENTRIES {
        return None;
    }
    let entry = |i| {
        let bytes = &region[32 + 32 * i..][..32];
        Entry {
            id: array(bytes, 0),
            place: Extent {
                offset: u64::from(number32(bytes, 16)),
                length: u64::from(number32(bytes, 20)),
            },
            flags: number32(bytes, 24),
        }
    };
    Some((0..usize::from(number16(region, 10))).map(entry).collect())
}

/// "The first five are needed; the locator too if HasParent." None if one is missing or of wrong length.
fn items(region: &[u8], entries: &[Entry]) -> Option<Items> {
    let place = |id| {
        let entry = entries.iter().find(|e| !e.is_user() && e.id == id)?;
        Some(entry.place)
    };
    let item = |id, length| {
        let place = place(id).filter(|place| place.length == length)?;
        Some(&region[place.offset as usize..][..length as usize])
    };
    let parameters = item(FILE_PARAMETERS, 8)?;
    let has_parent = number32(parameters, 4) & HAS_PARENT != 0;
    Some(Items {
        block_size: u64::from(number32(parameters, 0)),
        has_parent,
        disk_size: number64(item(DISK_SIZE, 8)?, 0),
        disk_id: array(item(DISK_ID, 16)?, 0),
        logical_sector_size: u64::from(number32(item(LOGICAL_SECTOR_SIZE, 4)?, 0)),
        physical_sector_size: u64::from(number32(item(PHYSICAL_SECTOR_SIZE, 4)?, 0)),
        // no length of it is wrong
        locator: if has_parent {
            place(PARENT_LOCATOR)?
        } else {
            Extent::default()
        },
    })
}
