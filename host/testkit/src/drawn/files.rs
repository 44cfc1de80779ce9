//! Files of many kinds, sound and without a pending log: what logs are drawn for and damage is done to.
use crate::closing::full_header;
use crate::image::{Image, GUID};
use crate::random::Random;
use crate::sample::{entry, M, TIB};
use crate::tables::{
    locator, stored, Disk, Item, Region, BAT, DISK_SIZE, FILE_PARAMETERS, IS_USER, LOGICAL,
    METADATA,
};
use crate::vhdx::Facts;
use vhdx_model as model;

/// A file. Past its end the buffer holds garbage.
pub struct Base {
    pub image: Image,
    /// What the tables say.
    pub facts: Facts,
}

impl Base {
    /// Makes an image a copy of this one, in the memory that it has.
    pub fn copy_to(&self, image: &mut Image) {
        image.buffer.clone_from(&self.image.buffer);
        image.length = self.image.length;
        image.log_offset = self.image.log_offset;
        image.log_length = self.image.log_length;
    }
}

/// A file's tables, and where it ends: at `length`, though its tables describe `full` bytes that a log may grow it to.
struct Kind {
    disk: Disk,
    log: (u64, u64),
    full: u64,
    length: u64,
}

impl Kind {
    fn new(disk: Disk, full: u64) -> Kind {
        Kind {
            disk,
            log: (M, M),
            full,
            length: full,
        }
    }

    /// The file in a buffer with some sectors to grow by.
    fn base(mut self, random: &mut Random) -> Base {
        self.disk.length = self.full as usize;
        let capacity = self.full as usize + 100_000;
        let (at, log) = (self.log.0 as usize, self.log.1 as usize);
        let mut image = Image::with_log_at(at, capacity, self.full, log, [0; 16]);
        image.tables(&self.disk);
        let facts = model::attach(&mut image.buffer, image.length).facts;
        assert_ne!(facts, Facts::default(), "a sound file");
        let regions = [facts.bat, facts.metadata].map(|r| r.offset + r.length);
        let payload = regions[0].max(regions[1]).max(self.log.0 + self.log.1);
        random.fill(&mut image.buffer[payload as usize..]);
        fill_bat(&mut image, &facts, random);
        // the second header is current in half of them
        full_header(&mut image, 1, random.below(2) * 2, GUID);
        full_header(&mut image, 0, 1, GUID);
        image.length = self.length;
        Base { image, facts }
    }
}

/// Fills the BAT. Most bitmaps are there: a lookup in state 7 needs one.
fn fill_bat(image: &mut Image, facts: &Facts, random: &mut Random) {
    let ratio = (facts.logical_sector_size << 23) / facts.block_size;
    let mibs = image.length / M;
    for number in 0..facts.bat.length / 8 {
        let is_bitmap = number % (ratio + 1) == ratio;
        let state = if is_bitmap && !random.one_in(8) {
            6
        } else {
            random.below(8)
        };
        let mib = match random.below(16) {
            0 => random.number() >> 20,
            1 => random.below(2),
            _ => 1 + random.below(mibs),
        };
        // bits 3 to 19 mean nothing
        let value = entry(mib, state) | random.below(3) << 5;
        let at = (facts.bat.offset + 8 * number) as usize;
        image.buffer[at..at + 8].copy_from_slice(&value.to_le_bytes());
    }
}

fn sizes(disk: &mut Disk, block_mib: u32, disk_size: u64) {
    let flags = disk.item(FILE_PARAMETERS).bytes[4];
    let [a, b, c, d] = (block_mib << 20).to_le_bytes();
    disk.set(FILE_PARAMETERS, &[a, b, c, d, flags, 0, 0, 0]);
    disk.set(DISK_SIZE, &disk_size.to_le_bytes());
}

/// Places both copies' regions.
fn place(disk: &mut Disk, metadata: (u64, u64), bat: (u64, u64)) {
    disk.metadata_at = metadata.0;
    for copy in &mut disk.copies {
        for (name, (offset, length)) in [(METADATA, metadata), (BAT, bat)] {
            let region = copy.region(name);
            (region.offset, region.length) = (offset, length as u32);
        }
    }
}

/// Keys that a locator here holds.
pub const KEYS: [&str; 3] = ["parent_linkage", "relative_path", "k"];

fn with_parent() -> Disk {
    Disk::with_parent(locator(&[
        (KEYS[0], "{83ed0ec3-24c8-49a6-a959-5e4bd1288791}"),
        (KEYS[1], "..\\parent.vhdx"),
        (KEYS[2], "v"),
        (KEYS[1], "the second of its name"),
    ]))
}

/// Blocks of 32 MiB. Most disks here are the largest whose BAT has 1 MiB.
fn usual_blocks() -> Disk {
    let mut disk = Disk::default();
    sizes(&mut disk, 32, 4064 << 30);
    disk
}

/// Blocks of 1 MiB.
fn small_blocks(parent: bool) -> Disk {
    let mut disk = if parent {
        with_parent()
    } else {
        Disk::default()
    };
    sizes(&mut disk, 1, 124 << 30);
    disk
}

/// Sectors of 4,096 bytes, a parent, and the log behind the regions.
fn large_sectors() -> Kind {
    let mut disk = with_parent();
    sizes(&mut disk, 2, (224 << 30) - 4096);
    disk.set(LOGICAL, &4096u32.to_le_bytes());
    place(&mut disk, (M, M), (2 * M, M));
    let mut kind = Kind::new(disk, 5 * M);
    kind.log = (3 * M, M);
    kind
}

/// 64 TiB in blocks of 256 MiB: its BAT takes 3 MiB.
fn largest() -> Kind {
    let mut disk = with_parent();
    sizes(&mut disk, 256, 64 * TIB);
    place(&mut disk, (5 * M, M), (2 * M, 3 * M));
    Kind::new(disk, 6 * M)
}

/// Regions and items that nobody knows, the second copy of the region table alone, and a log of 2 MiB.
fn crowded() -> Kind {
    let mut disk = small_blocks(true);
    place(&mut disk, (4 * M, M), (3 * M, M));
    for (i, (offset, length, required)) in [(5 * M, M, 0), (M, 0, 2), (6 * M, 0, 257)]
        .into_iter()
        .enumerate()
    {
        let mut region = Region::new([0x30 + i as u8; 16], offset, length);
        region.required = required;
        disk.copies[1].regions.insert(i, region);
    }
    disk.copies[0].bad_checksum = true;
    for i in 0..4u32 {
        let mut item = Item::new([0x40 + i as u8; 16], 300_000 + 8 * i, vec![i as u8; 8]);
        item.flags = IS_USER * (i % 2);
        disk.items.insert(2 * i as usize, item);
    }
    // a user item with a known identifier meets no need
    let mut user = Item::new(stored(DISK_SIZE), 0, Vec::new());
    user.flags = IS_USER;
    disk.items.insert(0, user);
    let mut kind = Kind::new(disk, 6 * M);
    kind.log = (M, 2 * M);
    kind
}

/// The file ends inside its BAT, at no whole sector: a log has to grow it.
fn grown_by_its_log(parent: bool) -> Kind {
    let mut kind = Kind::new(small_blocks(parent), 4 * M);
    kind.length = 3 * M + 100_001;
    kind
}

/// Every kind of file.
pub fn bases() -> Vec<Base> {
    let mut random = Random::new(7);
    let kinds = [
        Kind::new(usual_blocks(), 4 * M),
        Kind::new(small_blocks(false), 5 * M),
        Kind::new(small_blocks(true), 5 * M),
        large_sectors(),
        largest(),
        crowded(),
        grown_by_its_log(false),
        grown_by_its_log(true),
    ];
    kinds.map(|kind| kind.base(&mut random)).into()
}
