//! Every refusal from several causes, and the model's answer with it.
use crate::pair::Pair;
use shrunvaki_testkit::causes::{good, FILES};
use shrunvaki_testkit::closing::WRITER;
use shrunvaki_testkit::image::{GUID, HEADERS, MIB};
use shrunvaki_testkit::pending::r1_with;
use shrunvaki_testkit::sample::{entry, forbidden, Sample, M, MINUS_TEN, TIB};
use shrunvaki_testkit::tables::{
    locator, stored, Change, Disk, Item, Region, BAT, DISK_ID, DISK_SIZE, FILE_PARAMETERS,
    IS_REQUIRED, LOCATOR, LOGICAL, METADATA, PHYSICAL,
};
use shrunvaki_testkit::vhdx::Lookup;

/// A change to the first copy of the region table.
fn region(disk: &mut Disk, id: &str, change: impl FnOnce(&mut Region)) {
    change(disk.table().region(id));
}

/// One more region.
fn one_more(disk: &mut Disk, id: u8, offset: u64, length: u64, required: u32) {
    let mut region = Region::new([id; 16], offset, length);
    region.required = required;
    disk.table().regions.push(region);
}

const TABLES: &[(u64, &str, Change)] = &[
    (9, "signatures", |d| {
        d.copies.iter_mut().for_each(|c| c.signature = *b"rege")
    }),
    (9, "checksums", |d| {
        d.copies.iter_mut().for_each(|c| c.bad_checksum = true)
    }),
    (9, "counts", |d| {
        d.copies.iter_mut().for_each(|c| c.count = Some(2048))
    }),
    (9, "one of each", |d| {
        d.copies[0].bad_checksum = true;
        d.copies[1].count = Some(u32::MAX);
    }),
    (10, "identifier twice", |d| {
        one_more(d, 5, M, 0, 0);
        one_more(d, 5, M, 0, 0);
    }),
    (10, "offset", |d| region(d, BAT, |r| r.offset += 1)),
    (10, "in the first MiB", |d| region(d, BAT, |r| r.offset = 0)),
    (10, "length", |d| region(d, BAT, |r| r.length += 1)),
    (10, "outside the image", |d| {
        region(d, BAT, |r| r.length += MIB as u32)
    }),
    (10, "end wraps", |d| {
        region(d, BAT, |r| r.offset = 0u64.wrapping_sub(M))
    }),
    (10, "shares a byte", |d| {
        region(d, BAT, |r| r.offset = 2 * M)
    }),
    (10, "in the log", |d| one_more(d, 5, M, M, 0)),
    (10, "required", |d| one_more(d, 5, M, 0, 1)),
    (11, "no BAT", |d| {
        region(d, BAT, |r| r.id[0] ^= 1);
    }),
    (11, "no metadata", |d| {
        region(d, METADATA, |r| r.id[15] ^= 1)
    }),
    (11, "no regions", |d| d.table().regions.clear()),
    (12, "empty region", |d| {
        region(d, METADATA, |r| r.length = 0)
    }),
    (12, "signature", |d| d.signature = *b"metadatb"),
    (12, "count", |d| d.count = Some(2048)),
    (12, "item too long", |d| {
        d.item(DISK_ID).length = MIB as u32 + 1
    }),
    (12, "offset without length", |d| d.item(DISK_ID).length = 0),
    (12, "in the table", |d| d.item(DISK_ID).offset = 65535),
    (12, "past the region", |d| {
        d.item(DISK_ID).offset = MIB as u32 - 15
    }),
    (12, "end wraps 2^32", |d| {
        d.item(DISK_ID).offset = u32::MAX - 15
    }),
    (12, "identifier twice", |d| {
        let item = d.item(DISK_ID).clone();
        d.items.push(item);
    }),
    (12, "required", |d| {
        let mut item = Item::new([9; 16], 0, Vec::new());
        item.flags = IS_REQUIRED;
        d.items.push(item);
    }),
    (13, "missing", |d| d.item(DISK_ID).id[3] ^= 1),
    (13, "no items", |d| d.items.clear()),
    (13, "too short", |d| d.item(DISK_SIZE).length = 7),
    (13, "too long", |d| d.item(LOGICAL).length = 5),
    (13, "empty", |d| {
        d.set(PHYSICAL, &[]);
        d.item(PHYSICAL).offset = 0;
    }),
    (13, "no locator", |d| d.item(FILE_PARAMETERS).bytes[4] = 2),
    (14, "disk size", |d| {
        d.set(DISK_SIZE, &MINUS_TEN.to_le_bytes())
    }),
    (14, "half a sector", |d| {
        d.set(DISK_SIZE, &256u64.to_le_bytes())
    }),
    (14, "sector size", |d| {
        d.set(LOGICAL, &1024u32.to_le_bytes())
    }),
    (14, "block size", |d| {
        d.set(FILE_PARAMETERS, &[0, 0, 48, 0, 0, 0, 0, 0])
    }),
    (14, "locator's type", |d| {
        let mut bytes = locator(&[("a", "b")]);
        bytes[0] ^= 1;
        *d = Disk::with_parent(bytes);
    }),
    (14, "locator too short", |d| {
        *d = Disk::with_parent(locator(&[("a", "b")]));
        let item = d.items.last_mut().expect("the locator");
        assert_eq!(item.id, stored(LOCATOR));
        item.length = 19;
    }),
    (14, "empty key", |d| {
        *d = Disk::with_parent(locator(&[("a", "b"), ("", "b")]))
    }),
    (15, "64 TiB", |d| {
        d.set(DISK_SIZE, &(64 * TIB).to_le_bytes())
    }),
    (15, "no BAT", |d| region(d, BAT, |r| r.length = 0)),
    (15, "small blocks", |d| {
        d.set(FILE_PARAMETERS, &[0, 0, 16, 0, 0, 0, 0, 0]);
        d.set(DISK_SIZE, &TIB.to_le_bytes());
    }),
    (15, "full chunks alone count", |d| {
        d.set(FILE_PARAMETERS, &[0, 0, 16, 0, 0, 0, 0, 0]);
        d.set(DISK_SIZE, &((124 << 30) + 512u64).to_le_bytes());
    }),
];

/// A refused lookup: with a parent or not, the BAT entries of block 0 and of its bitmap, and the sector.
type RefusedLookup = (u64, &'static str, bool, [u64; 3]);

fn refused_lookups() -> Vec<RefusedLookup> {
    vec![
        (17, "behind the last", true, [0, 0, 10 << 20]),
        (17, "any number", true, [0, 0, MINUS_TEN]),
        (17, "all ones", false, [0, 0, u64::MAX]),
        (17, "first to wrap", false, [0, 0, 1 << 55]),
        (18, "state 4", true, [entry(3, 4), 0, 0]),
        (18, "state 5", false, [entry(3, 5), 0, 0]),
        (18, "state 7 without a parent", false, [entry(3, 7), 0, 0]),
        (18, "before 19", true, [entry(99, 4), 0, 0]),
        (19, "in the first MiB", false, [entry(0, 6), 0, 0]),
        (19, "past the image", false, [entry(8, 6), 0, 0]),
        (19, "highest", true, [0xffff_ffff_fff0_0006, 0, 0]),
        (19, "before 20", true, [entry(8, 7), 0, 0]),
        (20, "no bitmap", true, [entry(3, 7), 0, 0]),
        (20, "state 7", true, [entry(3, 7), entry(3, 7), 0]),
        (20, "in the first MiB", true, [entry(3, 7), entry(0, 6), 0]),
        (20, "past the image", true, [entry(3, 7), entry(8, 6), 0]),
    ]
}

fn lookups(pair: &mut Pair) {
    for (refusal, name, has_parent, [block, bitmap, sector]) in refused_lookups() {
        let mut sample = Sample::small(has_parent);
        sample.set_entry(0, block);
        sample.set_entry(4096, bitmap);
        let capacity = sample.buffer.len() as u64;
        pair.load_with(&sample.buffer, capacity, sample.length);
        let answer = pair.lookup(&sample.facts, sector);
        assert_eq!(answer, Lookup::Refused(refusal), "{name}");
    }
    let sample = Sample::largest(true);
    let capacity = sample.buffer.len() as u64;
    pair.load_with(&sample.buffer, capacity, sample.length);
    for (name, facts) in forbidden(sample.facts) {
        assert_eq!(pair.lookup(&facts, 0), Lookup::Refused(16), "{name}");
    }
    for length in [capacity + 1, u64::MAX] {
        pair.length = length;
        assert_eq!(pair.lookup(&sample.facts, 0), Lookup::Refused(16));
    }
}

/// Steps that the log of a sound file does not have, or that the file is too short for.
fn steps(pair: &mut Pair) {
    let image = good();
    for (k, grown, refusal) in [
        (3, 0, 21),
        (4, 8192, 21),
        (MINUS_TEN, 0, 21),
        (u64::MAX, 4096, 21),
        (1, 0, 22),
        (1, 4095, 22),
        (2, 0, 22),
        (2, 8191, 22),
        (1, 4096, 0),
        (2, 8192, 0),
    ] {
        let length = image.length + grown;
        pair.load_with(&image.buffer, image.buffer.len() as u64, length);
        assert_eq!(pair.step(k).refusal, refusal, "step {k} at {length}");
    }
}

/// Logs that can be applied and not closed: no sequence number follows the current header's.
fn closes(pair: &mut Pair) {
    for at in HEADERS {
        let mut image = good();
        image.header(at, u64::MAX, GUID);
        pair.answers(&image, 0, "attached");
        pair.load(&image);
        assert_eq!(pair.close(&WRITER).refusal, 23, "header at {at}");
        pair.load(&image);
        for k in [0, 1, 3, u64::MAX] {
            assert_eq!(pair.close_step(&WRITER, k).refusal, 23, "step {k}");
        }
    }
}

#[test]
fn every_refusal_from_several_causes() {
    let mut pair = Pair::default();
    pair.answers(&good(), 0, "unchanged");
    for (refusal, name, change) in FILES {
        let mut image = good();
        change(&mut image);
        pair.answers(&image, *refusal, name);
    }
    for (refusal, name, change) in TABLES {
        let mut disk = Disk::default();
        change(&mut disk);
        pair.answers(&r1_with(&disk).image, *refusal, name);
    }
    lookups(&mut pair);
    steps(&mut pair);
    closes(&mut pair);
    pair.tally.print("causes");
    pair.tally.assert_reached(1..=23, 3);
}
