//! Document 01's "Numbers to try", on images that this file builds.
use crate::bytes::{MIB, SECTOR, TIB};
use crate::crc::seal;
use crate::geometry::{self, Place};
use crate::identifier::{
    Identifier, BAT, DISK_ID, DISK_SIZE, FILE_PARAMETERS, LOGICAL_SECTOR_SIZE, METADATA,
    PHYSICAL_SECTOR_SIZE,
};
use crate::testing::{buffer, log_entry, put, LOG_ID};
use crate::{attach, lookup, plan, step, Attachment, Extent, Facts, Lookup, Stepped};

// ---- L: from sector to place

/// Sectors of 512 bytes, blocks of 32 MiB: ratio 128.
fn l_facts() -> Facts {
    Facts {
        logical_sector_size: 512,
        physical_sector_size: 512,
        block_size: 32 * MIB,
        disk_size: 64 << 30,
        bat: Extent {
            offset: MIB,
            length: MIB,
        },
        metadata: Extent {
            offset: 2 * MIB,
            length: MIB,
        },
        ..Facts::default()
    }
}

fn place(sector: u64) -> Place {
    geometry::place(&l_facts(), sector)
}

#[test]
fn l1_to_l4_and_l6() {
    let l1 = place(65_535);
    assert_eq!((l1.entry, l1.in_block), (0, 33_553_920));
    let l2 = place(65_536);
    assert_eq!((l2.entry, l2.in_block), (1, 0));
    let l3 = place(127 * 65_536);
    assert_eq!((l3.entry, l3.bitmap_entry), (127, 128));
    let l4 = place(8_388_608);
    assert_eq!((l4.entry, l4.bitmap_entry), (129, 257));
    let l6 = place(8_388_617);
    assert_eq!((l6.bit / 8, l6.bit % 8), (1, 1));
}

/// Looks up sector 1 where block 0 has an entry, in an image that ends with block 0 at 5 MiB.
fn sector_1(entry: u64) -> Lookup {
    let mut image = vec![0; 37 << 20];
    put(&mut image, MIB, &entry.to_le_bytes());
    lookup(&l_facts(), &image, image.len() as u64, 1)
}

#[test]
fn l5_and_the_highest_offset() {
    assert_eq!(sector_1(0x500006), Lookup::File(5_243_392), "L5");
    assert_eq!(sector_1(0x600006), Lookup::Refused(19), "ends past it");
    assert_eq!(sector_1(0xffff_ffff_fff0_0006), Lookup::Refused(19));
}

// ---- R: the log's work

/// The final length and the count for an image of 3 MiB, or the refusal.
fn r(capacity: u64, flushed: u64, offset: u64, length: u64) -> Result<(u64, u64), u64> {
    let mut buffer = buffer(capacity, LOG_ID);
    let entry = log_entry(flushed, 4 * MIB, &[(offset, length)]);
    put(&mut buffer, MIB, &entry);
    plan(&buffer, 3 * MIB).map(|plan| (plan.length, plan.count))
}

#[test]
fn r1_to_r6() {
    let (capacity, flushed, at) = (4 * MIB, 3 * MIB, 3_145_728);
    assert_eq!(r(capacity, flushed, at, 8_192), Ok((4_194_304, 2)), "R1");
    assert_eq!(r(4_194_303, flushed, at, 8_192), Err(8), "R2");
    assert_eq!(r(capacity, 3_145_729, at, 8_192), Err(6), "R3");
    assert_eq!(r(capacity, flushed, 1_044_480, 4_096), Err(7), "R4");
    assert_eq!(r(capacity, flushed, 1_048_576, 4_096), Err(7), "R5");
    assert_eq!(r(capacity, flushed, 1_048_576, 0), Ok((4 * MIB, 0)), "R6");
}

#[test]
fn descriptors_that_fill_a_sector_and_one_more() {
    for (count, sectors) in [(126, 1), (127, 2)] {
        let entry = log_entry(0, 0, &vec![(2 * MIB, 4096); count]);
        assert_eq!(entry.len(), sectors * SECTOR);
        let mut buffer = buffer(3 * MIB, LOG_ID);
        // the last sectors of the ring
        put(&mut buffer, 2 * MIB - entry.len() as u64, &entry);
        assert_eq!(plan(&buffer, 3 * MIB), Err(5), "its Tail is sector 0");
        put(&mut buffer, MIB, &entry);
        let plan = plan(&buffer, 3 * MIB).expect("a plan");
        assert_eq!(plan.sectors().count(), count);
        assert!(plan
            .sectors()
            .eq((1..=plan.count).map_while(|k| plan.sector(k))));
        assert_eq!((plan.sector(0), plan.sector(plan.count + 1)), (None, None));
    }
}

#[test]
fn steps_of_r1() {
    let mut image = buffer(4 * MIB, LOG_ID);
    put(&mut image, MIB, &log_entry(0, 4 * MIB, &[(3 * MIB, 8192)]));
    image[3 << 20..].fill(9);
    let stepped = |refusal, length| Stepped { refusal, length };
    assert_eq!(step(&mut image, 3 * MIB, 1), stepped(22, 3 * MIB));
    assert_eq!(step(&mut image, 3 * MIB, 3), stepped(21, 3 * MIB));
    let short = 3 * MIB + 4096;
    assert_eq!(step(&mut image, short, 2), stepped(22, short));
    assert_eq!(step(&mut image, short, 1), stepped(0, short));
    let end = image.len();
    assert!(image[3 << 20..short as usize].iter().all(|b| *b == 0));
    assert!(image[short as usize..end].iter().all(|b| *b == 9));
    assert_eq!(step(&mut image, short, 0), stepped(0, 4 * MIB));
    assert!(image[3 << 20..].iter().all(|b| *b == 0));
}

// ---- tables

/// A disk of a size, without a log: its metadata region is at 2 MiB, its BAT at 3 MiB.
fn disk(size: u64) -> Vec<u8> {
    let mut image = buffer(4 * MIB, [0; 16]);
    let table = &mut image[196608..196608 + 65536];
    put(table, 0, b"regi");
    put(table, 8, &2u32.to_le_bytes());
    for (i, (id, offset)) in [(16, (METADATA, 2 * MIB)), (48, (BAT, 3 * MIB))] {
        put(table, i, &id);
        put(table, i + 16, &offset.to_le_bytes());
        put(table, i + 24, &(MIB as u32).to_le_bytes());
    }
    seal(table);
    let region = &mut image[2 << 20..3 << 20];
    put(region, 0, b"metadata");
    put(region, 10, &5u16.to_le_bytes());
    let items: [(Identifier, &[u8]); 5] = [
        (FILE_PARAMETERS, &(32 * MIB).to_le_bytes()),
        (DISK_SIZE, &size.to_le_bytes()),
        (DISK_ID, &[3; 16]),
        (LOGICAL_SECTOR_SIZE, &512u32.to_le_bytes()),
        (PHYSICAL_SECTOR_SIZE, &4096u32.to_le_bytes()),
    ];
    for (i, (id, bytes)) in (0..).zip(items) {
        let offset = 65536 + 16 * i as u32;
        put(region, 32 + 32 * i, &id);
        put(region, 48 + 32 * i, &offset.to_le_bytes());
        put(region, 52 + 32 * i, &(bytes.len() as u32).to_le_bytes());
        put(region, offset.into(), bytes);
    }
    image
}

fn refusal(size: u64) -> u64 {
    attach(&mut disk(size), 4 * MIB).refusal
}

#[test]
fn disk_sizes() {
    assert_eq!(refusal(18_446_744_073_709_551_606), 14, "minus ten");
    assert_eq!(refusal(0), 14);
    assert_eq!(refusal(513), 14);
    assert_eq!(refusal(64 * TIB + 512), 14);
    assert_eq!(refusal(64 * TIB), 15, "in range, but its BAT is 16 MiB");
    let answer = attach(&mut disk(1 << 30), 4 * MIB);
    let facts = Facts {
        physical_sector_size: 4096,
        disk_size: 1 << 30,
        disk_id: [3; 16],
        bat: Extent {
            offset: 3 * MIB,
            length: MIB,
        },
        ..l_facts()
    };
    let expected = Attachment {
        length: 4 * MIB,
        facts,
        ..Attachment::default()
    };
    assert_eq!(answer, expected);
}
