//! The tables of an image on real bytes: every clause of every rule broken alone and at its boundary, two broken at once for the
//! order of refusals. Each expected answer is written from document 01.
use shrunvaki_testkit::api;
use shrunvaki_testkit::image::MIB;
use shrunvaki_testkit::pending::usual_facts;
use shrunvaki_testkit::tables::{
    locator, stored, Change, Disk, Item, Region, RegionTable, BAT, DISK_ID, DISK_SIZE,
    FILE_PARAMETERS, IS_REQUIRED, IS_USER, LOCATOR, LOCATOR_TYPE, LOGICAL, METADATA, PHYSICAL,
};
use shrunvaki_testkit::vhdx::{Extent, Facts};

const M: u64 = MIB as u64;

/// The BAT's identifier in the order in which it is written, not stored.
const BAT_AS_WRITTEN: [u8; 16] = [
    0x2d, 0xc2, 0x77, 0x66, 0xf6, 0x23, 0x42, 0x00, 0x9d, 0x64, 0x11, 0x5e, 0x9b, 0xfd, 0x4a, 0x08,
];

/// The items that every disk needs.
const NEEDED: [&str; 5] = [FILE_PARAMETERS, DISK_SIZE, DISK_ID, LOGICAL, PHYSICAL];

fn read(disk: &Disk) -> Result<Facts, u64> {
    api::tables(&disk.bytes(), disk.log)
}

/// The refusal's number, 0 for none.
fn number(disk: &Disk) -> u64 {
    read(disk).err().unwrap_or(0)
}

/// What a disk answers after a change to it.
fn after(change: impl FnOnce(&mut Disk)) -> u64 {
    let mut disk = Disk::default();
    change(&mut disk);
    number(&disk)
}

/// What it answers after a change to the first copy of its region table.
fn with_table(change: impl FnOnce(&mut RegionTable)) -> u64 {
    after(|disk| change(disk.table()))
}

/// What it answers with one more region.
fn with_region(region: Region) -> u64 {
    with_table(|table| table.regions.push(region))
}

/// What it answers with one more region at an offset, in an image of a length.
fn with_region_in(size: usize, offset: u64, length: u64) -> u64 {
    after(|d| {
        d.length = size;
        d.table()
            .regions
            .push(Region::new(unknown(1), offset, length));
    })
}

/// What it answers with a BAT of a length, which its image holds, after a change to it.
fn with_bat(length: u64, change: impl FnOnce(&mut Disk)) -> u64 {
    after(|d| {
        d.length = 7 * MIB;
        for copy in &mut d.copies {
            copy.region(BAT).length = length as u32;
        }
        change(d);
    })
}

/// An identifier that nobody knows.
fn unknown(n: u32) -> [u8; 16] {
    let mut id = *b"nobody knows ...";
    id[12..].copy_from_slice(&n.to_le_bytes());
    id
}

fn extent(offset: u64, length: u64) -> Extent {
    Extent { offset, length }
}

// ---- facts

#[test]
fn facts_without_a_parent() {
    assert_eq!(read(&Disk::default()), Ok(usual_facts()));
}

#[test]
fn facts_with_a_parent() {
    let bytes = locator(&[
        ("relative_path", "..\\parent.vhdx"),
        ("parent_linkage", "{83ed}"),
    ]);
    let facts = read(&Disk::with_parent(bytes.clone())).expect("accepted");
    assert!(facts.has_parent);
    assert_eq!(facts.locator, extent(2 * M + 131072, bytes.len() as u64));
}

#[test]
fn a_locator_without_a_parent_is_not_looked_at() {
    for bytes in [vec![], vec![7; 19], locator(&[("a", "b")])] {
        let mut disk = Disk::default();
        let mut item = Item::new(stored(LOCATOR), 131072, bytes);
        if item.length == 0 {
            item.offset = 0;
        }
        disk.items.push(item);
        assert_eq!(read(&disk).expect("accepted").locator, extent(0, 0));
    }
}

#[test]
fn what_is_not_named_is_not_tested() {
    let mut disk = Disk::default();
    disk.item(FILE_PARAMETERS).bytes[4..8].copy_from_slice(&[0xfd, 0xff, 0xff, 0xff]);
    let mut image = disk.bytes();
    // reserved fields of the metadata table's header and of an entry
    let region = 2 * MIB;
    image[region + 8..region + 10].fill(0xff);
    image[region + 12..region + 32].fill(0xff);
    image[region + 60..region + 64].fill(0xff);
    assert!(!api::tables(&image, disk.log).expect("accepted").has_parent);
}

// ---- 9: the two copies

#[test]
fn a_copy_is_valid_by_its_signature_checksum_and_count() {
    let spoilt: [fn(&mut RegionTable); 3] = [
        |t| t.signature = *b"regj",
        |t| t.bad_checksum = true,
        |t| t.count = Some(2048),
    ];
    for spoil in spoilt {
        assert_eq!(with_table(spoil), 0, "the second copy is used");
        assert_eq!(after(|d| spoil(&mut d.copies[1])), 0, "the first is enough");
        for other in spoilt {
            let both = after(|d| {
                spoil(&mut d.copies[0]);
                other(&mut d.copies[1]);
            });
            assert_eq!(both, 9);
        }
    }
}

#[test]
fn the_first_valid_copy_is_used_whatever_its_entries_say() {
    assert_eq!(with_table(|t| t.regions[1].offset += 1), 10);
    assert_eq!(with_table(|t| t.regions.clear()), 11);
    assert_eq!(after(|d| d.copies[1].regions.clear()), 0);
    // both differ and are good: the facts are the first's
    let mut disk = Disk {
        length: 5 * MIB,
        ..Disk::default()
    };
    disk.copies[1].region(BAT).offset = 4 * M;
    assert_eq!(read(&disk).expect("accepted").bat, extent(3 * M, M));
}

// ---- 10: a region entry

#[test]
fn a_region_identifier_is_unique() {
    let entry = |id, at| Region::new(id, at, 0);
    assert_eq!(with_region(entry(unknown(1), M)), 0);
    assert_eq!(with_region(entry(stored(BAT), M)), 10);
    assert_eq!(with_region(entry(stored(METADATA), M)), 10);
    for (a, b, expected) in [(1, 2, 0), (1, 1, 10), (0x100, 0x200, 0), (1 << 31, 0, 0)] {
        let got = with_table(|t| {
            t.regions.insert(0, entry(unknown(a), M));
            t.regions.push(entry(unknown(b), M));
        });
        assert_eq!(got, expected);
    }
}

#[test]
fn region_offsets_and_lengths_are_whole_mib() {
    let cases = [
        (M, 0, 0),
        (0, 0, 10),
        (M - 1, 0, 10),
        (M + 1, 0, 10),
        (4 * M - 4096, 0, 10),
        (4 * M, 0, 0),
        (4 * M, 1, 10),
        (4 * M, 65536, 10),
        (4 * M, M - 1, 10),
        (4 * M, M, 0),
        (4 * M, M + 1, 10),
    ];
    for (offset, length, expected) in cases {
        let got = with_region_in(6 * MIB, offset, length);
        assert_eq!(got, expected, "{length} at {offset}");
    }
}

#[test]
fn a_region_lies_inside_the_image() {
    let cases = [
        (4 * M, M, 5 * MIB, 0),
        (4 * M, M, 5 * MIB - 1, 10),
        (4 * M, 2 * M, 5 * MIB, 10),
        (5 * M, 0, 5 * MIB, 0),
        (6 * M, 0, 5 * MIB, 10),
        // the end wraps
        (u64::MAX - M + 1, M, 5 * MIB, 10),
        (u64::MAX - M + 1, 2 * M, 5 * MIB, 10),
        (u64::MAX - M + 1, 4095 * M, 5 * MIB, 10),
        (1 << 63, M, 5 * MIB, 10),
    ];
    for (offset, length, size, expected) in cases {
        let got = with_region_in(size, offset, length);
        assert_eq!(got, expected, "{length} at {offset} of {size}");
    }
}

#[test]
fn regions_share_no_byte() {
    // metadata 2 to 3 MiB, BAT 3 to 4 MiB, image 8 MiB
    let cases = [
        (4 * M, M, 0),
        (3 * M, M, 10),
        (2 * M, M, 10),
        (2 * M, 2 * M, 10),
        (3 * M, 2 * M, 10),
        (4 * M, 4 * M, 0),
        // an empty region shares none, wherever it lies
        (2 * M, 0, 0),
        (3 * M, 0, 0),
    ];
    for (offset, length, expected) in cases {
        for first in [false, true] {
            let got = after(|d| {
                d.length = 8 * MIB;
                let region = Region::new(unknown(1), offset, length);
                let at = if first { 0 } else { 2 };
                d.table().regions.insert(at, region);
            });
            assert_eq!(got, expected, "{length} at {offset}");
        }
    }
    // an empty one strictly inside another
    let got = after(|d| {
        d.length = 8 * MIB;
        let regions = &mut d.table().regions;
        regions.push(Region::new(unknown(1), 4 * M, 3 * M));
        regions.push(Region::new(unknown(2), 5 * M, 0));
    });
    assert_eq!(got, 0);
}

#[test]
fn regions_share_no_byte_with_the_log() {
    let cases = [
        ((M, M), 0),
        ((2 * M, 0), 0),
        ((M, M + 1), 10),
        ((M, 3 * M), 10),
        ((3 * M, M), 10),
        ((4 * M - 1, 1), 10),
        ((4 * M, M), 0),
        ((0, 8 * M), 10),
        // an empty log shares none
        ((3 * M, 0), 0),
        ((2 * M + 1, 0), 0),
    ];
    for (log, expected) in cases {
        assert_eq!(after(|d| d.log = log), expected, "{log:?}");
    }
    // an empty region in the log
    let got = after(|d| {
        d.log = (4 * M, 4 * M);
        d.length = 8 * MIB;
        d.table().regions.push(Region::new(unknown(1), 5 * M, 0));
    });
    assert_eq!(got, 0);
}

#[test]
fn an_unknown_region_is_not_required() {
    for (required, expected) in [(0, 0), (1, 10), (2, 0), (257, 0), (u32::MAX, 0)] {
        let mut region = Region::new(unknown(1), M, 0);
        region.required = required;
        assert_eq!(with_region(region), expected, "Required {required}");
        // of a known one Required says nothing
        assert_eq!(with_table(|t| t.region(BAT).required = required), 0);
        assert_eq!(with_table(|t| t.region(METADATA).required = required), 0);
    }
    // as written, not as stored
    let mut region = Region::new(BAT_AS_WRITTEN, M, 0);
    region.required = 1;
    assert_eq!(with_region(region), 10);
}

// ---- 11: the regions that are needed

#[test]
fn both_regions_are_needed() {
    assert_eq!(with_table(|t| t.regions.truncate(1)), 11);
    assert_eq!(with_table(|t| t.regions = t.regions.split_off(1)), 11);
    assert_eq!(with_table(|t| t.regions.clear()), 11);
    // in any order
    assert_eq!(with_table(|t| t.regions.reverse()), 0);
    // identifiers as they are written
    assert_eq!(with_table(|t| t.region(BAT).id = BAT_AS_WRITTEN), 11);
}

// ---- 12: the metadata table

#[test]
fn an_empty_metadata_region() {
    assert_eq!(with_table(|t| t.region(METADATA).length = 0), 12);
    // also at the image's end, where nothing is to read
    let got = with_table(|t| {
        t.region(METADATA).length = 0;
        t.region(METADATA).offset = 4 * M;
    });
    assert_eq!(got, 12);
}

#[test]
fn the_metadata_table_has_its_signature_and_at_most_2047_entries() {
    assert_eq!(after(|d| d.signature = *b"metadatb"), 12);
    assert_eq!(after(|d| d.signature = *b"Metadata"), 12);
    let fill = |count: u32| {
        after(|d| {
            let more = count - d.items.len() as u32;
            d.items
                .extend((0..more).map(|n| Item::new(unknown(n), 0, vec![])));
        })
    };
    assert_eq!(fill(2047), 0);
    assert_eq!(after(|d| d.count = Some(2048)), 12);
    assert_eq!(after(|d| d.count = Some(u16::MAX)), 12);
}

/// What a disk with a metadata region of 3 MiB answers with one more item.
fn with_item(offset: u32, length: u32, flags: u32, id: [u8; 16]) -> u64 {
    let mut disk = Disk {
        length: 6 * MIB,
        ..Disk::default()
    };
    for copy in &mut disk.copies {
        copy.region(METADATA).length = 3 << 20;
        copy.region(BAT).offset = 5 * M;
    }
    let mut item = Item::new(id, offset, vec![]);
    item.length = length;
    item.flags = flags;
    disk.items.push(item);
    number(&disk)
}

#[test]
fn an_item_lies_behind_the_table_and_inside_the_region() {
    let (m, region) = (1 << 20, 3 << 20);
    let cases = [
        (65536, 1, 0),
        (65535, 1, 12),
        (0, 1, 12),
        (65537, 1, 0),
        // at most 1 MiB
        (65536, m, 0),
        (65536, m + 1, 12),
        // up to the region's end, not only to 1 MiB
        (region - 1, 1, 0),
        (region - m, m, 0),
        (region - m + 1, m, 12),
        (region, 1, 12),
        (region - 1, 2, 12),
        // the sum wraps in 32 bits
        (u32::MAX, 1, 12),
        (u32::MAX, 65537, 12),
        (u32::MAX - m + 1, m, 12),
        // length 0 only with offset 0
        (0, 0, 0),
        (1, 0, 12),
        (65536, 0, 12),
        (u32::MAX, 0, 12),
    ];
    for (offset, length, expected) in cases {
        let got = with_item(offset, length, 0, unknown(1));
        assert_eq!(got, expected, "{length} at {offset}");
    }
}

#[test]
fn an_identifier_is_unique_with_its_user_bit() {
    for (a, b, expected) in [
        ((1, 0), (1, 0), 12),
        ((1, IS_USER), (1, IS_USER), 12),
        ((1, 0), (1, IS_USER), 0),
        ((1, 0), (2, 0), 0),
        // other flags do not tell them apart
        ((1, 0), (1, 2), 12),
        ((1, IS_USER), (1, IS_USER | 2), 12),
    ] {
        let got = after(|d| {
            for (n, flags) in [a, b] {
                let mut item = Item::new(unknown(n), 0, vec![]);
                item.flags = flags;
                d.items.insert(0, item);
            }
        });
        assert_eq!(got, expected, "{a:?} {b:?}");
    }
    for written in NEEDED {
        let twice = |flags| {
            after(|d| {
                let mut item = d.item(written).clone();
                item.flags = flags;
                d.items.push(item);
            })
        };
        assert_eq!(twice(0), 12);
        assert_eq!(twice(IS_USER), 0);
    }
}

#[test]
fn an_unknown_item_is_not_required() {
    for (flags, expected) in [
        (0, 0),
        (IS_REQUIRED, 12),
        (IS_REQUIRED | IS_USER, 12),
        (IS_USER, 0),
        (2, 0),
        (!IS_REQUIRED, 0),
        (u32::MAX, 12),
    ] {
        assert_eq!(with_item(0, 0, flags, unknown(1)), expected, "{flags:#x}");
    }
    // a known one may be, and one of a user is never known
    for written in NEEDED.into_iter().chain([LOCATOR]) {
        let id = stored(written);
        if written == LOCATOR {
            assert_eq!(with_item(0, 0, IS_REQUIRED, id), 0);
        } else {
            assert_eq!(after(|d| d.item(written).flags = IS_REQUIRED), 0);
        }
        assert_eq!(with_item(0, 0, IS_USER, id), 0);
        assert_eq!(with_item(0, 0, IS_USER | IS_REQUIRED, id), 12);
    }
}

// ---- 13: the needed items

#[test]
fn five_items_are_needed_each_with_its_length() {
    for written in NEEDED {
        let id = stored(written);
        assert_eq!(after(|d| d.items.retain(|i| i.id != id)), 13);
        assert_eq!(after(|d| d.item(written).length += 1), 13);
        assert_eq!(after(|d| d.item(written).length -= 1), 13);
        let empty = after(|d| {
            d.set(written, &[]);
            d.item(written).offset = 0;
        });
        assert_eq!(empty, 13);
        // a user's item does not serve
        assert_eq!(after(|d| d.item(written).flags = IS_USER), 13);
        // nor does one before the system's stand in its way
        let got = after(|d| {
            let mut item = Item::new(id, 0, vec![]);
            item.flags = IS_USER;
            d.items.insert(0, item);
        });
        assert_eq!(got, 0);
    }
}

#[test]
fn the_locator_is_needed_with_a_parent() {
    assert_eq!(after(|d| d.item(FILE_PARAMETERS).bytes[4] = 2), 13);
    assert_eq!(after(|d| d.item(FILE_PARAMETERS).bytes[4] = 0xfd), 0);
    let mut disk = Disk::with_parent(locator(&[]));
    assert_eq!(number(&disk), 0);
    disk.item(LOCATOR).flags = IS_USER;
    assert_eq!(number(&disk), 13);
}

// ---- 14: values

fn with_size(written: &str, bytes: &[u8]) -> u64 {
    after(|d| d.set(written, bytes))
}

#[test]
fn sector_sizes_are_512_or_4096() {
    for written in [LOGICAL, PHYSICAL] {
        for n in [
            0u32,
            1,
            511,
            513,
            520,
            1024,
            2048,
            4095,
            4097,
            8192,
            65536 + 512,
            u32::MAX,
        ] {
            assert_eq!(with_size(written, &n.to_le_bytes()), 14, "{n}");
        }
        for n in [512u32, 4096] {
            assert_eq!(with_size(written, &n.to_le_bytes()), 0, "{n}");
        }
    }
}

#[test]
fn block_sizes_are_powers_of_two_from_1_to_256_mib() {
    let with_block = |n: u32| {
        let mut bytes = n.to_le_bytes().to_vec();
        bytes.extend([0; 4]);
        with_size(FILE_PARAMETERS, &bytes)
    };
    for k in 0..32 {
        let n = 1u32 << k;
        let expected = if (20..=28).contains(&k) { 0 } else { 14 };
        assert_eq!(with_block(n), expected, "{n}");
        assert_eq!(with_block(n + 1), 14, "{}", n + 1);
        assert_eq!(with_block(n - 1), 14, "{}", n - 1);
    }
    for n in [0, 3 << 20, 24 << 20, 255 << 20, 257 << 20, u32::MAX] {
        assert_eq!(with_block(n), 14, "{n}");
    }
}

#[test]
fn disk_sizes_are_whole_sectors_up_to_64_tib() {
    let with_disk = |sector: u32, n: u64| {
        // enough for 64 TiB of blocks of 256 MiB
        with_bat(4 * M, |d| {
            d.set(FILE_PARAMETERS, &[0, 0, 0, 16, 0, 0, 0, 0]);
            d.set(LOGICAL, &sector.to_le_bytes());
            d.set(DISK_SIZE, &n.to_le_bytes());
        })
    };
    let tib = 1u64 << 40;
    for sector in [512u32, 4096] {
        let s = u64::from(sector);
        for n in [s, 2 * s, 1 << 30, 64 * tib - s, 64 * tib] {
            assert_eq!(with_disk(sector, n), 0, "{n}");
        }
        // 18,446,744,073,709,551,606 is minus ten
        let minus_ten = 18_446_744_073_709_551_606;
        for n in [
            0,
            1,
            s - 1,
            s + 1,
            64 * tib + s,
            64 * tib + 1,
            1 << 63,
            minus_ten,
            u64::MAX,
        ] {
            assert_eq!(with_disk(sector, n), 14, "{n}");
        }
        assert_eq!(with_disk(sector, 0u64.wrapping_sub(s)), 14);
    }
    assert_eq!(with_disk(4096, 512), 14);
    assert_eq!(with_disk(4096, 4608), 14);
}

fn with_locator(bytes: Vec<u8>) -> u64 {
    number(&Disk::with_parent(bytes))
}

#[test]
fn a_locator_has_at_least_20_bytes_and_its_type() {
    let empty = locator(&[]);
    assert_eq!(empty.len(), 20);
    assert_eq!(with_locator(empty.clone()), 0);
    assert_eq!(with_locator(empty[..19].to_vec()), 14);
    let mut disk = Disk::with_parent(vec![]);
    disk.item(LOCATOR).offset = 0;
    assert_eq!(number(&disk), 14, "an item of length 0");
    for i in 0..16 {
        let mut bytes = empty.clone();
        bytes[i] ^= 0x80;
        assert_eq!(with_locator(bytes), 14);
    }
    let mut written = empty;
    written[..16]
        .copy_from_slice(b"\xb0\x4a\xef\xb7\xd1\x9e\x4a\x81\xb7\x89\x25\xb8\xe9\x44\x59\x13");
    assert_eq!(with_locator(written), 14, "{LOCATOR_TYPE} as it is written");
}

#[test]
fn a_locators_entries_keys_and_values_lie_inside_it() {
    let good = locator(&[("key", "value"), ("relative_path", "..\\parent.vhdx")]);
    let n = good.len() as u32;
    assert_eq!(with_locator(good.clone()), 0);
    let change = |at: usize, bytes: &[u8]| {
        let mut locator = good.clone();
        locator[at..at + bytes.len()].copy_from_slice(bytes);
        with_locator(locator)
    };
    // the count: as many entries as the item holds, and one more
    let fit = ((n - 20) / 12) as u16;
    assert_eq!(change(18, &(fit + 1).to_le_bytes()), 14);
    assert_eq!(change(18, &u16::MAX.to_le_bytes()), 14);
    assert_eq!(change(18, &1u16.to_le_bytes()), 0);
    assert_eq!(
        with_locator(good[..43].to_vec()),
        14,
        "an entry that ends one past the item"
    );
    for entry in [20, 32] {
        // key offset and length, value offset and length
        for (offset_at, length_at) in [(entry, entry + 8), (entry + 4, entry + 10)] {
            let length = u32::from(u16::from_le_bytes([good[length_at], good[length_at + 1]]));
            assert_eq!(change(length_at, &[0, 0]), 14, "length 0");
            assert_eq!(
                change(offset_at, &(n - length).to_le_bytes()),
                0,
                "up to the end"
            );
            assert_eq!(
                change(offset_at, &(n - length + 1).to_le_bytes()),
                14,
                "one past"
            );
            assert_eq!(change(offset_at, &0u32.to_le_bytes()), 0, "anywhere inside");
            assert_eq!(change(offset_at, &u32::MAX.to_le_bytes()), 14, "wraps");
            let whole = [n as u8, (n >> 8) as u8];
            assert_eq!(change(length_at, &whole), 14, "longer than what is left");
        }
    }
    // an odd length is like any other
    assert_eq!(change(28, &[1, 0]), 0);
}

// ---- 15: the BAT region

#[test]
fn the_bat_holds_whole_chunks() {
    // 512-byte sectors and blocks of 1 MiB: ratio 4,096; 1 MiB holds 31 chunks of 4,097 entries, not 32
    let with_blocks = |blocks: u64, bat: u64| {
        with_bat(bat, |d| {
            d.set(FILE_PARAMETERS, &[0, 0, 16, 0, 0, 0, 0, 0]);
            d.set(DISK_SIZE, &(blocks * M).to_le_bytes());
        })
    };
    assert_eq!(with_blocks(31 * 4096, M), 0);
    assert_eq!(with_blocks(31 * 4096 + 1, M), 15);
    assert_eq!(with_blocks(31 * 4096 + 1, 2 * M), 0);
    assert_eq!(with_blocks(63 * 4096, 2 * M), 0);
    assert_eq!(with_blocks(64 * 4096, 2 * M), 15);
    assert_eq!(with_blocks(1, 0), 15);
    // blocks are rounded up: one sector more is one block more
    let more = |sectors: u64| {
        after(|d| {
            d.set(FILE_PARAMETERS, &[0, 0, 16, 0, 0, 0, 0, 0]);
            d.set(DISK_SIZE, &(31 * 4096 * M + sectors * 512).to_le_bytes());
        })
    };
    assert_eq!(more(0), 0);
    assert_eq!(more(1), 15);
    // with 4,096-byte sectors the ratio is 32,768: 1 MiB holds 3 chunks of 32,769 entries
    let large = |blocks: u64| {
        after(|d| {
            d.set(LOGICAL, &4096u32.to_le_bytes());
            d.set(FILE_PARAMETERS, &[0, 0, 16, 0, 0, 0, 0, 0]);
            d.set(DISK_SIZE, &(blocks * M).to_le_bytes());
        })
    };
    assert_eq!(large(3 * 32768), 0);
    assert_eq!(large(3 * 32768 + 1), 15);
}

// ---- a lower number anywhere beats a higher one anywhere

#[test]
fn the_first_refusal_that_applies_is_the_answer() {
    let breaks: [(u64, Change); 7] = [
        (9, |d| {
            d.copies.iter_mut().for_each(|t| t.signature = *b"xxxx")
        }),
        (10, |d| {
            let mut region = Region::new(unknown(1), M, 0);
            region.required = 1;
            d.table().regions.push(region);
        }),
        (11, |d| {
            let id = stored(BAT);
            d.table().regions.retain(|r| r.id != id);
        }),
        (12, |d| {
            let mut item = Item::new(unknown(1), 0, vec![]);
            item.flags = IS_REQUIRED;
            d.items.push(item);
        }),
        (13, |d| {
            let id = stored(PHYSICAL);
            d.items.retain(|i| i.id != id);
        }),
        (14, |d| d.set(LOGICAL, &[0; 4])),
        (15, |d| d.set(DISK_SIZE, &(64u64 << 40).to_le_bytes())),
    ];
    for (n, one) in breaks {
        assert_eq!(after(one), n);
        for (m, other) in breaks {
            let got = after(|d| {
                one(d);
                other(d);
            });
            assert_eq!(got, n.min(m), "{n} and {m}");
        }
    }
}

#[test]
fn a_short_image() {
    let image = Disk::default().bytes();
    let log = (M, M);
    assert_eq!(api::tables(&image[..MIB - 1], log), Err(1));
    assert_eq!(api::tables(&[], log), Err(1));
    assert_eq!(api::tables(&image[..MIB], log), Err(10));
}
