//! What attach says of a disk.
use super::identifier::identifier_text;
use super::raw::Slots;

/// A part of a file.
#[derive(Debug, PartialEq, Eq, Clone, Copy, Default)]
pub struct Extent {
    /// From the file's start, in bytes.
    pub offset: u64,
    /// In bytes.
    pub length: u64,
}

/// What a disk is. Lookups take the facts back and judge all of them again, so that they may be kept anywhere.
#[derive(Debug, PartialEq, Eq, Clone, Copy, Default)]
pub struct Facts {
    /// In bytes: 512 or 4,096. A sector number counts sectors of this size.
    pub logical_sector_size: u64,
    /// In bytes: 512 or 4,096. What the disk behind had; sector numbers do not count it.
    pub physical_sector_size: u64,
    /// Of a payload block, in bytes.
    pub block_size: u64,
    /// The size to charge, in bytes.
    pub disk_size: u64,
    /// Whether sectors may lie in a parent disk.
    pub has_parent: bool,
    /// As stored; [`Facts::disk_id_text`] is how it is written.
    pub disk_id: [u8; 16],
    /// The block allocation table.
    pub bat: Extent,
    /// The region of the disk's metadata items.
    pub metadata: Extent,
    /// The parent locator; empty at 0 without a parent.
    pub locator: Extent,
}

impl Facts {
    /// The facts in the slots of attach's answer.
    pub fn from_slots(slots: &Slots) -> Facts {
        let mut disk_id = [0; 16];
        disk_id[..8].copy_from_slice(&slots[8].to_le_bytes());
        disk_id[8..].copy_from_slice(&slots[9].to_le_bytes());
        let extent = |at: usize| Extent {
            offset: slots[at],
            length: slots[at + 1],
        };
        Facts {
            logical_sector_size: slots[3],
            physical_sector_size: slots[4],
            block_size: slots[5],
            disk_size: slots[6],
            has_parent: slots[7] != 0,
            disk_id,
            bat: extent(10),
            metadata: extent(12),
            locator: extent(14),
        }
    }

    /// The slots that lookup and parent key take; those of no fact are 0.
    pub fn slots(&self) -> Slots {
        let half =
            |at: usize| u64::from_le_bytes(self.disk_id[at..at + 8].try_into().expect("8 bytes"));
        let mut slots = [0; 32];
        slots[3..16].copy_from_slice(&[
            self.logical_sector_size,
            self.physical_sector_size,
            self.block_size,
            self.disk_size,
            u64::from(self.has_parent),
            half(0),
            half(8),
            self.bat.offset,
            self.bat.length,
            self.metadata.offset,
            self.metadata.length,
            self.locator.offset,
            self.locator.length,
        ]);
        slots
    }

    /// How many sectors the disk has.
    pub fn sectors(&self) -> u64 {
        self.disk_size
            .checked_div(self.logical_sector_size)
            .unwrap_or(0)
    }

    /// The disk identifier as it is written.
    pub fn disk_id_text(&self) -> String {
        identifier_text(&self.disk_id)
    }
}
