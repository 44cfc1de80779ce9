//! Limits of the region table, the metadata table and its items: one below, at, and one above.
use crate::pair::Pair;
use shrunvaki_testkit::image::{put32, Image, MIB};
use shrunvaki_testkit::sample::{M, TIB};
use shrunvaki_testkit::tables::{
    locator, Disk, Item, Region, BAT, DISK_SIZE, FILE_PARAMETERS, IS_REQUIRED, IS_USER, LOCATOR,
    LOGICAL, PHYSICAL,
};
use shrunvaki_testkit::vhdx::{Attachment, Lookup};

/// Attaches a disk without a log.
#[track_caller]
fn of(pair: &mut Pair, disk: &Disk, refusal: u64, name: &str) -> Attachment {
    let mut image = Image::new(disk.length, disk.length as u64, MIB, [0; 16]);
    image.tables(disk);
    pair.answers(&image, refusal, name)
}

/// The same after a change to the usual disk.
#[track_caller]
fn after(pair: &mut Pair, change: impl FnOnce(&mut Disk), refusal: u64, name: &str) {
    let mut disk = Disk::default();
    change(&mut disk);
    of(pair, &disk, refusal, name);
}

/// An identifier that nobody knows.
fn unknown(n: u32) -> [u8; 16] {
    let mut id = [0xaa; 16];
    id[6..10].copy_from_slice(&n.to_le_bytes());
    id
}

#[test]
fn counts() {
    let mut pair = Pair::default();
    for (count, regions, items) in [(2046, 0, 0), (2047, 0, 0), (2048, 9, 12)] {
        // empty regions share no byte with anything
        let fill = |disk: &mut Disk| {
            for copy in &mut disk.copies {
                let more = (0..count - 2).map(|i| Region::new(unknown(i), M, 0));
                copy.regions.extend(more);
                // a table holds 2,047 entries
                copy.regions.truncate(2047);
                copy.count = Some(count);
            }
        };
        after(&mut pair, fill, regions, "regions");
        let fill_first = |disk: &mut Disk| {
            let second = disk.copies[1].clone();
            fill(disk);
            disk.copies[1] = second;
        };
        after(&mut pair, fill_first, 0, "the second copy is good");
        let fill_items = |disk: &mut Disk| {
            let more = (0..count - 5).map(|i| Item::new(unknown(i), 0, Vec::new()));
            disk.items.extend(more);
            disk.items.truncate(2047);
            disk.count = Some(count as u16);
        };
        after(&mut pair, fill_items, items, "items");
    }
    // the last two of very many are the same
    for i in [2045, 2046] {
        let twice = |disk: &mut Disk| {
            let more = (0..2045).map(|i| Region::new(unknown(i), M, 0));
            disk.table().regions.extend(more);
            disk.table().regions[i].id = unknown(0);
        };
        after(&mut pair, twice, 10, "a region twice");
        let twice = |disk: &mut Disk| {
            let more = (0..2042).map(|i| Item::new(unknown(i), 0, Vec::new()));
            disk.items.extend(more);
            disk.items[i].id = unknown(0);
        };
        after(&mut pair, twice, 12, "an item twice");
    }
}

#[test]
fn places_of_regions() {
    let mut pair = Pair::default();
    for (offset, length, refusal) in [
        (0, 0, 10),
        (M - 1, 0, 10),
        (M, 0, 0),
        (M, M, 10),
        (2 * M, 0, 0),
        (2 * M, M, 10),
        (4 * M, M, 0),
        (4 * M, 2 * M, 0),
        (4 * M, 2 * M - 1, 10),
        (4 * M, 3 * M, 10),
        (5 * M, M, 0),
        (5 * M, 2 * M, 10),
        (6 * M, 0, 0),
        (6 * M, M, 10),
        (7 * M, 0, 10),
        (0u64.wrapping_sub(M), M, 10),
        (0u64.wrapping_sub(M), 0, 10),
    ] {
        for required in [0, 1, 2, u32::MAX] {
            let refusal = if required == 1 { 10 } else { refusal };
            let one_more = |disk: &mut Disk| {
                disk.length = 6 * MIB;
                let mut region = Region::new(unknown(1), offset, length);
                region.required = required;
                disk.table().regions.push(region);
            };
            let name = format!("{length} at {offset}, {required}");
            after(&mut pair, one_more, refusal, &name);
        }
    }
}

#[test]
fn places_of_items() {
    let mut pair = Pair::default();
    let mib = MIB as u32;
    for (offset, length, refusal) in [
        (0, 0, 0),
        (1, 0, 12),
        (65536, 0, 12),
        (0, 1, 12),
        (65535, 1, 12),
        (65536, 1, 0),
        (65536, mib - 1, 0),
        (65536, mib, 0),
        (65536, mib + 1, 12),
        (mib, mib, 0),
        (mib + 1, mib, 12),
        (2 * mib - 1, 1, 0),
        (2 * mib, 1, 12),
        (u32::MAX, 1, 12),
        (u32::MAX, u32::MAX, 12),
    ] {
        for flags in [0, IS_USER, IS_REQUIRED, IS_USER | IS_REQUIRED, 2, !5] {
            let refusal = if flags & IS_REQUIRED != 0 {
                12
            } else {
                refusal
            };
            let one_more = |disk: &mut Disk| {
                // a metadata region of 2 MiB behind the BAT
                disk.length = 6 * MIB;
                disk.metadata_at = 4 * M;
                for region in disk.copies.iter_mut().flat_map(|c| &mut c.regions) {
                    if region.offset == 2 * M {
                        (region.offset, region.length) = (4 * M, 2 * mib);
                    }
                }
                let mut item = Item::new(unknown(1), offset, Vec::new());
                (item.length, item.flags) = (length, flags);
                disk.items.push(item);
            };
            let name = format!("{length} at {offset}, {flags}");
            after(&mut pair, one_more, refusal, &name);
        }
    }
}

#[test]
fn sizes() {
    let mut pair = Pair::default();
    let sectors = [
        (0, 14),
        (511, 14),
        (512, 0),
        (513, 14),
        (1024, 14),
        (4095, 14),
        (4096, 0),
        (4097, 14),
        (8192, 14),
    ];
    for (size, refusal) in sectors {
        for item in [LOGICAL, PHYSICAL] {
            let bytes = u32::to_le_bytes(size);
            let name = format!("sectors of {size}");
            after(&mut pair, |d| d.set(item, &bytes), refusal, &name);
        }
    }
    for (mib, refusal) in [
        (0, 14),
        (1, 0),
        (2, 0),
        (3, 14),
        (255, 14),
        (256, 0),
        (512, 14),
    ] {
        for more in [0, 1] {
            let refusal = if more == 1 { 14 } else { refusal };
            let change = |disk: &mut Disk| {
                disk.set(FILE_PARAMETERS, &(mib * M + more).to_le_bytes());
            };
            after(&mut pair, change, refusal, &format!("{mib} MiB + {more}"));
        }
    }
    let top = 64 * TIB;
    let ranges = [
        0,
        1,
        511,
        512,
        513,
        1024,
        4096,
        top - 1,
        top - 512,
        top,
        top + 512,
        1 << 63,
    ];
    for size in ranges {
        let in_range = size != 0 && size <= top && size % 512 == 0;
        let refusal = match size {
            _ if !in_range => 14,
            // the BAT has 1 MiB
            _ if size > 4 * TIB => 15,
            _ => 0,
        };
        let change = |disk: &mut Disk| disk.set(DISK_SIZE, &size.to_le_bytes());
        after(&mut pair, change, refusal, &format!("a disk of {size}"));
    }
}

/// A disk whose BAT has so many MiB.
fn with_bat(disk: &mut Disk, mibs: usize) {
    disk.length = (3 + mibs) * MIB;
    for copy in &mut disk.copies {
        copy.region(BAT).length = (mibs * MIB) as u32;
    }
}

#[test]
fn the_shortest_bat() {
    let mut pair = Pair::default();
    // block size in MiB, logical sector size, MiB of the BAT, and GiB of the largest disk that it does for
    for (block, logical, mibs, gib) in [
        (1, 512, 1, 124),
        (1, 512, 2, 252),
        (1, 4096, 1, 96),
        (1, 4096, 2, 224),
        (32, 512, 1, 4064),
        (32, 512, 2, 8128),
        // a sector more needs one entry more than there is
        (32, 512, 16, 65_024),
        (256, 4096, 1, 32_512),
        (256, 4096, 2, 65_024),
    ] {
        let size = gib << 30;
        let sector = u64::from(logical);
        for (size, refusal) in [(size - sector, 0), (size, 0), (size + sector, 15)] {
            let mut disk = Disk::default();
            with_bat(&mut disk, mibs);
            disk.set(LOGICAL, &u32::to_le_bytes(logical));
            disk.set(FILE_PARAMETERS, &(block * M).to_le_bytes());
            disk.set(DISK_SIZE, &size.to_le_bytes());
            let name = format!("{size} in blocks of {block} MiB");
            let mut facts = of(&mut pair, &disk, refusal, &name).facts;
            // a lookup asks the same of the facts
            if refusal == 0 {
                assert_eq!(pair.lookup(&facts, size / sector - 1), Lookup::Zero);
                facts.disk_size = (gib << 30) + sector;
                assert_eq!(pair.lookup(&facts, 0), Lookup::Refused(16), "{name}");
            }
        }
    }
}

#[test]
fn parent_locators() {
    let mut pair = Pair::default();
    let good = locator(&[("key", "value"), ("k", "v")]);
    let end = good.len();
    for (length, refusal) in [
        (0, 14),
        (19, 14),
        (20, 14),
        (43, 14),
        (end - 1, 14),
        (end, 0),
    ] {
        let mut disk = Disk::with_parent(good.clone());
        disk.set(LOCATOR, &good[..length]);
        if length == 0 {
            disk.item(LOCATOR).offset = 0;
        }
        of(&mut pair, &disk, refusal, &format!("{length} bytes"));
    }
    // each of the two entries: offset of the key and of the value
    for at in [20, 24, 32, 36] {
        let length = u32::from(good[at + 8 - (at - 20) % 12 / 4 * 2]);
        let longest = end as u32 - length;
        for (offset, refusal) in [(0, 0), (longest, 0), (longest + 1, 14), (u32::MAX, 14)] {
            let mut bytes = good.clone();
            put32(&mut bytes, at, offset);
            let name = format!("{offset} in byte {at}");
            of(&mut pair, &Disk::with_parent(bytes), refusal, &name);
        }
    }
    for (count, refusal) in [(0, 0), (1, 0), (2, 0), (3, 14), (255, 14)] {
        let mut bytes = good.clone();
        bytes[18] = count;
        let name = format!("{count} entries");
        of(&mut pair, &Disk::with_parent(bytes), refusal, &name);
    }
    let empty = Disk::with_parent(locator(&[]));
    of(&mut pair, &empty, 0, "a header alone");
}
